// Counts the instructions that a program executes, for qemu-user (7.2 or later): a plugin that adds up, for each block of
// instructions, how often it ran. At the end it writes one line for each block, ADDRESS INSTRUCTIONS TIMES, to the file that
// COUNT_FILE names. What is declared here of qemu's plugin interface is its version 1.
#include <stddef.h>
#include <stdint.h>
#include <stdio.h>
#include <stdlib.h>

typedef uint64_t qemu_plugin_id_t;
struct qemu_info;
struct qemu_plugin_tb;
enum qemu_plugin_op { QEMU_PLUGIN_INLINE_ADD_U64 };

size_t qemu_plugin_tb_n_insns(const struct qemu_plugin_tb *block);
uint64_t qemu_plugin_tb_vaddr(const struct qemu_plugin_tb *block);
void qemu_plugin_register_vcpu_tb_trans_cb(qemu_plugin_id_t id, void (*met)(qemu_plugin_id_t, struct qemu_plugin_tb *));
void qemu_plugin_register_vcpu_tb_exec_inline(struct qemu_plugin_tb *block, enum qemu_plugin_op op, void *at, uint64_t add);
void qemu_plugin_register_atexit_cb(qemu_plugin_id_t id, void (*ended)(qemu_plugin_id_t, void *), void *data);

#define SHOWN __attribute__((visibility("default")))

SHOWN int qemu_plugin_version = 1;

struct block {
    uint64_t address, instructions, times;
    struct block *before;
};

static struct block *last;

// A block is met for the first time: from now on its runs are counted.
static void met(qemu_plugin_id_t id, struct qemu_plugin_tb *tb) {
    struct block *block = calloc(1, sizeof *block);
    (void)id;
    if (!block) abort();
    block->address = qemu_plugin_tb_vaddr(tb);
    block->instructions = qemu_plugin_tb_n_insns(tb);
    block->before = last;
    last = block;
    qemu_plugin_register_vcpu_tb_exec_inline(tb, QEMU_PLUGIN_INLINE_ADD_U64, &block->times, 1);
}

static void ended(qemu_plugin_id_t id, void *data) {
    const char *name = getenv("COUNT_FILE");
    FILE *file = name ? fopen(name, "w") : NULL;
    (void)id;
    (void)data;
    if (!file) abort();
    for (struct block *block = last; block; block = block->before)
        fprintf(file, "%llx %llu %llu\n", (unsigned long long)block->address, (unsigned long long)block->instructions,
                (unsigned long long)block->times);
    fclose(file);
}

SHOWN int qemu_plugin_install(qemu_plugin_id_t id, const struct qemu_info *info, int argc, char **argv) {
    (void)info;
    (void)argc;
    (void)argv;
    qemu_plugin_register_vcpu_tb_trans_cb(id, met);
    qemu_plugin_register_atexit_cb(id, ended, NULL);
    return 0;
}
