/* A plugin of the emulator qemu-x86_64: the guest's instructions between each two calls of getppid, or all of them where there is
 * none, a number to a line of standard error.
 * What it needs of the plugin interface, version 1, is declared here, since Debian's packages have no header for it. */
#include <stddef.h>
#include <stdint.h>
#include <stdio.h>

enum { GETPPID = 110, ADD = 0 };

typedef uint64_t plugin_id;
struct qemu_plugin_tb;
int qemu_plugin_version = 1;
size_t qemu_plugin_tb_n_insns(const struct qemu_plugin_tb *);
void qemu_plugin_register_vcpu_tb_exec_inline(struct qemu_plugin_tb *, int, void *, uint64_t);
void qemu_plugin_register_vcpu_tb_trans_cb(plugin_id, void (*)(plugin_id, struct qemu_plugin_tb *));
void qemu_plugin_register_atexit_cb(plugin_id, void (*)(plugin_id, void *), void *);
void qemu_plugin_register_vcpu_syscall_cb(plugin_id, void (*)(plugin_id, unsigned, int64_t, uint64_t, uint64_t, uint64_t, uint64_t,
                                                              uint64_t, uint64_t, uint64_t, uint64_t));

static uint64_t executed, before;
static int marked, open_mark;

static void block(plugin_id id, struct qemu_plugin_tb *b) {
    (void)id;
    qemu_plugin_register_vcpu_tb_exec_inline(b, ADD, &executed, qemu_plugin_tb_n_insns(b));
}

static void call(plugin_id id, unsigned cpu, int64_t number, uint64_t a, uint64_t b, uint64_t c, uint64_t d, uint64_t e, uint64_t f,
                 uint64_t g, uint64_t h) {
    (void)id, (void)cpu, (void)a, (void)b, (void)c, (void)d, (void)e, (void)f, (void)g, (void)h;
    if (number != GETPPID)
        return;
    marked = 1;
    if (open_mark)
        fprintf(stderr, "%llu\n", (unsigned long long)(executed - before));
    open_mark = !open_mark;
    before = executed;
}

static void end(plugin_id id, void *nothing) {
    (void)id, (void)nothing;
    if (!marked)
        fprintf(stderr, "%llu\n", (unsigned long long)executed);
}

int qemu_plugin_install(plugin_id id, const void *info, int argc, char **argv) {
    (void)info, (void)argc, (void)argv;
    qemu_plugin_register_vcpu_tb_trans_cb(id, block);
    qemu_plugin_register_vcpu_syscall_cb(id, call);
    qemu_plugin_register_atexit_cb(id, end, NULL);
    return 0;
}
