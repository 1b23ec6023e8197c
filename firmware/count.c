/*
 * A plugin of the emulator: between the instructions at begin= and end= it counts how often the instruction at each address
 * is executed, and how often one was left by a jump. Written to out=, a block for each such section.
 */
#include <inttypes.h>
#include <stdio.h>
#include <stdlib.h>
#include <string.h>

/* Debian ships the plugin interface without its header */
typedef uint64_t plugin_id;
struct qemu_plugin_tb;
struct qemu_plugin_insn;
extern size_t qemu_plugin_tb_n_insns(const struct qemu_plugin_tb *);
extern struct qemu_plugin_insn *qemu_plugin_tb_get_insn(const struct qemu_plugin_tb *, size_t);
extern uint64_t qemu_plugin_insn_vaddr(const struct qemu_plugin_insn *);
extern size_t qemu_plugin_insn_size(const struct qemu_plugin_insn *);
extern void qemu_plugin_register_vcpu_insn_exec_cb(struct qemu_plugin_insn *, void (*)(unsigned, void *), int, void *);
extern void qemu_plugin_register_vcpu_tb_trans_cb(plugin_id, void (*)(plugin_id, struct qemu_plugin_tb *));
extern void qemu_plugin_register_atexit_cb(plugin_id, void (*)(plugin_id, void *), void *);
__attribute__((visibility("default"))) int qemu_plugin_version = 1;

enum { FLASH = 256 * 1024 };
static uint64_t count[FLASH / 2], taken[FLASH / 2];
static uint64_t begin, end, next = 0;
static uint32_t last;
static int inside;
static FILE *out;

static void on(unsigned cpu, void *p) {
    uint64_t a = (uintptr_t)p & 0xFFFFFFF, size = (uintptr_t)p >> 28;
    (void)cpu;
    if (a == begin) {
        inside = 1;
        next = 0;
        memset(count, 0, sizeof count);
        memset(taken, 0, sizeof taken);
    }
    if (!inside || a >= FLASH) return;
    if (next && a != next) taken[last / 2]++;
    count[a / 2]++;
    last = (uint32_t)a;
    next = a + size;
    if (a == end) {
        inside = 0;
        fprintf(out, "zone\n");
        for (uint32_t i = 0; i < FLASH / 2; i++)
            if (count[i]) fprintf(out, "%x %" PRIu64 " %" PRIu64 "\n", 2 * i, count[i], taken[i]);
    }
}

static void translated(plugin_id id, struct qemu_plugin_tb *tb) {
    (void)id;
    for (size_t i = 0, n = qemu_plugin_tb_n_insns(tb); i < n; i++) {
        struct qemu_plugin_insn *x = qemu_plugin_tb_get_insn(tb, i);
        uintptr_t a = (uintptr_t)qemu_plugin_insn_vaddr(x) & 0xFFFFFFF;
        qemu_plugin_register_vcpu_insn_exec_cb(x, on, 0, (void *)(a | (uintptr_t)qemu_plugin_insn_size(x) << 28));
    }
}

static void done(plugin_id id, void *p) {
    (void)id;
    (void)p;
    fclose(out);
}

__attribute__((visibility("default"))) int qemu_plugin_install(plugin_id id, const void *info, int argc, char **argv) {
    (void)info;
    for (int i = 0; i < argc; i++) {
        if (!strncmp(argv[i], "begin=", 6)) begin = strtoull(argv[i] + 6, 0, 16);
        if (!strncmp(argv[i], "end=", 4)) end = strtoull(argv[i] + 4, 0, 16);
        if (!strncmp(argv[i], "out=", 4)) out = fopen(argv[i] + 4, "w");
    }
    if (!out) return 1;
    qemu_plugin_register_vcpu_tb_trans_cb(id, translated);
    qemu_plugin_register_atexit_cb(id, done, 0);
    return 0;
}
