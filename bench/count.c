/* A plugin of qemu's user mode: counts the instructions that a program executes between marks. A mark is the system call getppid, which
   the measured program makes for nothing else; the marks come in twos, and at every second one the count since the first goes, as a
   line of its own, to the file named by the argument out=FILE. */
#include <inttypes.h>
#include <stddef.h>
#include <stdio.h>
#include <string.h>

/* The part of qemu's plugin interface that is used, since Debian packages no header for it. */
typedef uint64_t plugin_id;
struct qemu_plugin_tb;
extern size_t qemu_plugin_tb_n_insns(const struct qemu_plugin_tb *block);
extern void qemu_plugin_register_vcpu_tb_trans_cb(plugin_id id, void (*translated)(plugin_id, struct qemu_plugin_tb *));
extern void qemu_plugin_register_vcpu_tb_exec_cb(struct qemu_plugin_tb *block, void (*executed)(unsigned, void *), int registers, void *data);
/* Quicker than a call for each block, and gone from later versions. */
extern void qemu_plugin_register_vcpu_tb_exec_inline(struct qemu_plugin_tb *block, int operation, void *sum, uint64_t amount)
    __attribute__((weak));
typedef void on_syscall(plugin_id, unsigned, int64_t, uint64_t, uint64_t, uint64_t, uint64_t, uint64_t, uint64_t, uint64_t, uint64_t);
extern void qemu_plugin_register_vcpu_syscall_cb(plugin_id id, on_syscall *entered);

__attribute__((visibility("default"))) int qemu_plugin_version = PLUGIN_VERSION;

enum { GETPPID = 110, ADD = 0, NO_REGISTERS = 0 };

static uint64_t executed, since;
static int marks;
static FILE *out;

static void add(unsigned cpu, void *data)
{
    (void)cpu;
    executed += (uintptr_t)data;
}

static void translated(plugin_id id, struct qemu_plugin_tb *block)
{
    size_t n = qemu_plugin_tb_n_insns(block);
    (void)id;
    if (qemu_plugin_register_vcpu_tb_exec_inline != NULL)
        qemu_plugin_register_vcpu_tb_exec_inline(block, ADD, &executed, n);
    else
        qemu_plugin_register_vcpu_tb_exec_cb(block, add, NO_REGISTERS, (void *)(uintptr_t)n);
}

static void entered(plugin_id id, unsigned cpu, int64_t number, uint64_t a, uint64_t b, uint64_t c, uint64_t d, uint64_t e, uint64_t f,
                    uint64_t g, uint64_t h)
{
    (void)id, (void)cpu, (void)a, (void)b, (void)c, (void)d, (void)e, (void)f, (void)g, (void)h;
    if (number != GETPPID)
        return;
    if (++marks % 2 == 0) {
        fprintf(out, "%" PRIu64 "\n", executed - since);
        fflush(out);
    }
    since = executed;
}

__attribute__((visibility("default"))) int qemu_plugin_install(plugin_id id, const void *info, int argc, char **argv)
{
    (void)info;
    if (argc != 1 || strncmp(argv[0], "out=", 4) != 0 || (out = fopen(argv[0] + 4, "w")) == NULL)
        return 1;
    qemu_plugin_register_vcpu_tb_trans_cb(id, translated);
    qemu_plugin_register_vcpu_syscall_cb(id, entered);
    return 0;
}
