/* A qemu plugin: counts the guest's instructions, and prints the count at the driver's magic system call. */
#include <inttypes.h>
#include <stddef.h>
#include <stdio.h>

/* from qemu-plugin.h, which no package installs */
typedef uint64_t id;
struct qemu_plugin_tb;
void qemu_plugin_register_vcpu_tb_trans_cb(id, void (*)(id, struct qemu_plugin_tb *));
size_t qemu_plugin_tb_n_insns(const struct qemu_plugin_tb *);
void qemu_plugin_register_vcpu_tb_exec_inline(struct qemu_plugin_tb *, int op, void *, uint64_t);
typedef void call_cb(id, unsigned cpu, int64_t number, uint64_t, uint64_t, uint64_t, uint64_t, uint64_t, uint64_t, uint64_t, uint64_t);
void qemu_plugin_register_vcpu_syscall_cb(id, call_cb *);

enum { ADD = 0, MAGIC = 0x5eed };

int qemu_plugin_version = 1;
static uint64_t count;

static void translated(id self, struct qemu_plugin_tb *block)
{
    qemu_plugin_register_vcpu_tb_exec_inline(block, ADD, &count, qemu_plugin_tb_n_insns(block));
}

static void called(id self, unsigned cpu, int64_t number, uint64_t tag, uint64_t b, uint64_t c, uint64_t d, uint64_t e, uint64_t f,
                   uint64_t g, uint64_t h)
{
    if (number == MAGIC)
        fprintf(stderr, "cut %" PRIu64 " %" PRIu64 "\n", tag, count);
}

int qemu_plugin_install(id self, const void *info, int argc, char **argv)
{
    qemu_plugin_register_vcpu_tb_trans_cb(self, translated);
    qemu_plugin_register_vcpu_syscall_cb(self, called);
    return 0;
}
