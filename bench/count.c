/*
 * A plugin of qemu-user that counts the guest's instructions between two marks.
 * A mark is a system call with a number of its own (bench/mark.h): its first
 * argument is 0 where counting starts, else the number of the line
 * `count LINE INSTRUCTIONS` written to standard error.
 *
 * Debian ships no qemu-plugin.h; declared here is what is used of it.
 */
#include <inttypes.h>
#include <stddef.h>
#include <stdio.h>
#include "mark.h"

typedef uint64_t plugin_id;
struct qemu_plugin_tb;
struct qemu_plugin_insn;
struct qemu_info;

typedef void on_translation(plugin_id, struct qemu_plugin_tb *);
typedef void on_execution(unsigned, void *);
typedef void on_syscall(plugin_id, unsigned, int64_t, uint64_t, uint64_t, uint64_t, uint64_t,
                        uint64_t, uint64_t, uint64_t, uint64_t);

void qemu_plugin_register_vcpu_tb_trans_cb(plugin_id, on_translation *);
void qemu_plugin_register_vcpu_insn_exec_cb(struct qemu_plugin_insn *, on_execution *, int flags,
                                            void *);
void qemu_plugin_register_vcpu_syscall_cb(plugin_id, on_syscall *);
size_t qemu_plugin_tb_n_insns(const struct qemu_plugin_tb *);
struct qemu_plugin_insn *qemu_plugin_tb_get_insn(const struct qemu_plugin_tb *, size_t);

/* The plugin interface's version, which each qemu takes within a range. */
int qemu_plugin_version = PLUGIN_VERSION;

static uint64_t executed, at_start;

static void count_one(unsigned cpu, void *unused)
{
    (void)cpu;
    (void)unused;
    executed++;
}

static void count_each(plugin_id id, struct qemu_plugin_tb *block)
{
    (void)id;
    for (size_t i = 0; i < qemu_plugin_tb_n_insns(block); i++)
        qemu_plugin_register_vcpu_insn_exec_cb(qemu_plugin_tb_get_insn(block, i), count_one, 0,
                                               NULL);
}

static void see_mark(plugin_id id, unsigned cpu, int64_t number, uint64_t line, uint64_t b,
                     uint64_t c, uint64_t d, uint64_t e, uint64_t f, uint64_t g, uint64_t h)
{
    (void)id, (void)cpu, (void)b, (void)c, (void)d, (void)e, (void)f, (void)g, (void)h;
    if (number != MARK)
        return;
    if (line == 0)
        at_start = executed;
    else
        fprintf(stderr, "count %" PRIu64 " %" PRIu64 "\n", line, executed - at_start);
}

int qemu_plugin_install(plugin_id id, const struct qemu_info *info, int argc, char **argv)
{
    (void)info, (void)argc, (void)argv;
    qemu_plugin_register_vcpu_tb_trans_cb(id, count_each);
    qemu_plugin_register_vcpu_syscall_cb(id, see_mark);
    return 0;
}
