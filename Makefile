# Everything the bureau holds in its hands. Programs and library are for x86-64; elsewhere they run under Debian's qemu-user.
#   make            prove everything, build the library and the programs
#   make demo       what there is to see, in plain words
#   make test       the gate: proves every crate, tries every edit that must be refused, runs programs and host tests
#   make host       the host tests alone
#   make soak       a longer comparison of library and model (ROUNDS=20)
#   make measure    instructions and stack against the C model and programs of it; writes docs/MEASURED.md
#   make install    library, headers, pkg-config file, programs and man pages (PREFIX=/usr/local, DESTDIR=)
#   make uninstall  removes what install put there (the same PREFIX and DESTDIR)
#   make clean      removes target/ and each crate's out/, where all that is built stands, and nothing else
#   make help       these lines
# All but demo's first part, uninstall, clean and help need the Rattle kit, rt on the path.
PREFIX = /usr/local
ROUNDS = 20
export PREFIX DESTDIR

.PHONY: all demo test host soak measure install uninstall clean help

all:
	@host/scripts/build

demo:
	@host/demo/run

test:
	@host/scripts/tools rt
	.ci/run

host:
	host/run

# What is unchanged is not proved again: rt decides that, here and in install, so that no old library is ever taken.
soak:
	@host/scripts/tools rt make cc run
	@host/scripts/build library
	$(MAKE) -C host soak ROUNDS=$(ROUNDS)

measure:
	host/measure/run

install:
	@host/scripts/build library programs
	@host/scripts/install

uninstall:
	@host/scripts/uninstall

clean:
	rm -rf target crates/*/out

help:
	@sed -n 's/^#   //p' Makefile
