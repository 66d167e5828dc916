// A plugin for qemu-user, as the shared tools' insns.c: counts the instructions executed in a range of the program's addresses (`lo`, `hi`, as its symbol table has them; `text` is where its code
// begins there) and everywhere, and writes both to standard error at the end.
#include <inttypes.h>
#include <stddef.h>
#include <stdint.h>
#include <stdio.h>
#include <stdlib.h>
#include <string.h>

struct qemu_plugin_tb;
extern void qemu_plugin_register_vcpu_tb_trans_cb(uint64_t, void (*)(uint64_t, struct qemu_plugin_tb *));
extern size_t qemu_plugin_tb_n_insns(const struct qemu_plugin_tb *);
extern uint64_t qemu_plugin_tb_vaddr(const struct qemu_plugin_tb *);
extern uint64_t qemu_plugin_start_code(void);
extern void qemu_plugin_register_vcpu_tb_exec_inline(struct qemu_plugin_tb *, int, void *, uint64_t);
extern void qemu_plugin_register_atexit_cb(uint64_t, void (*)(uint64_t, void *), void *);

#define SEEN __attribute__((visibility("default")))
SEEN int qemu_plugin_version = 1;

static uint64_t all, inside, lo, hi, text;

static void translated(uint64_t id, struct qemu_plugin_tb *tb) {
    (void)id;
    uint64_t n = qemu_plugin_tb_n_insns(tb), at = qemu_plugin_tb_vaddr(tb) - qemu_plugin_start_code() + text;
    qemu_plugin_register_vcpu_tb_exec_inline(tb, 0, &all, n);
    if (lo <= at && at < hi) qemu_plugin_register_vcpu_tb_exec_inline(tb, 0, &inside, n);
}

static void ended(uint64_t id, void *none) {
    (void)id, (void)none;
    fprintf(stderr, "insns %" PRIu64 " inside %" PRIu64 "\n", all, inside);
}

SEEN int qemu_plugin_install(uint64_t id, const void *info, int argc, char **argv) {
    (void)info;
    for (int i = 0; i < argc; i++) {
        uint64_t v = strtoull(strchr(argv[i], '=') + 1, NULL, 16);
        if (!strncmp(argv[i], "lo=", 3)) lo = v;
        if (!strncmp(argv[i], "hi=", 3)) hi = v;
        if (!strncmp(argv[i], "text=", 5)) text = v;
    }
    qemu_plugin_register_vcpu_tb_trans_cb(id, translated);
    qemu_plugin_register_atexit_cb(id, ended, NULL);
    return 0;
}
