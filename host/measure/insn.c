/* insn.c: a plugin of qemu-user that counts the instructions of the program it
 * runs, for make measure where valgrind cannot run x86-64 programs.
 *
 *   qemu-x86_64 -plugin insn.so PROGRAM    says the number on standard error
 *
 * qemu translates blocks of instructions; each block that is run adds its
 * length.  Debian has no package with qemu's header for plugins, so what is
 * used of version 1 of its interface is declared here. */
#include <inttypes.h>
#include <stddef.h>
#include <stdio.h>

#define SEEN_BY_QEMU __attribute__((visibility("default")))

enum { INLINE_ADD_U64 = 0 };

typedef uint64_t plugin_id;
struct qemu_plugin_tb;
typedef void translated_call(plugin_id id, struct qemu_plugin_tb *block);
typedef void end_call(plugin_id id, void *context);

void qemu_plugin_register_vcpu_tb_trans_cb(plugin_id id, translated_call *call);
size_t qemu_plugin_tb_n_insns(const struct qemu_plugin_tb *block);
void qemu_plugin_register_vcpu_tb_exec_inline(struct qemu_plugin_tb *block,
                                              int operation, void *number,
                                              uint64_t value);
void qemu_plugin_register_atexit_cb(plugin_id id, end_call *call,
                                    void *context);

SEEN_BY_QEMU int qemu_plugin_version = 1;
SEEN_BY_QEMU int qemu_plugin_install(plugin_id id, const void *info, int count,
                                     char **words);

static uint64_t counted;

static void translated(plugin_id id, struct qemu_plugin_tb *block)
{
    (void)id;
    qemu_plugin_register_vcpu_tb_exec_inline(block, INLINE_ADD_U64, &counted,
                                             qemu_plugin_tb_n_insns(block));
}

static void ended(plugin_id id, void *context)
{
    (void)id;
    (void)context;
    fprintf(stderr, "instructions: %" PRIu64 "\n", counted);
}

int qemu_plugin_install(plugin_id id, const void *info, int count, char **words)
{
    (void)info;
    (void)count;
    (void)words;
    qemu_plugin_register_vcpu_tb_trans_cb(id, translated);
    qemu_plugin_register_atexit_cb(id, ended, NULL);
    return 0;
}
