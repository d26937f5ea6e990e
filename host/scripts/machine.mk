# machine.mk: how to build and run programs for x86-64 on this machine.
# The library is for x86-64; elsewhere programs are cross-compiled and run
# under Debian's qemu-user, with a plugin that counts instructions.  NATIVE is
# this machine's own compiler, for plain C programs that link no library.
ifeq ($(shell uname -m),x86_64)
CC = cc
RUN =
STATIC =
COUNTER =
else
CC = x86_64-linux-gnu-gcc
RUN = qemu-x86_64
STATIC = -static
COUNTER = native/insn.so
endif
NATIVE = cc
CFLAGS = -std=c99 -O2 -g -Wall -Wextra -Wpedantic -Werror
