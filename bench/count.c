// A plugin for qemu-user that counts the instructions of the program that it runs:
//
//     qemu-x86_64 -plugin ./count.so,out=FILE[,blocks=FILE] PROGRAM ..
//
// `out` gets their number. `blocks` gets the address of the program's code, and for each block of instructions its address, how many it has and
// how often it was entered. A block is counted where it is entered. What is declared here is version 1 of qemu's interface for
// plugins, whose header stands in no package.
#include <inttypes.h>
#include <stdint.h>
#include <stdio.h>
#include <stdlib.h>
#include <string.h>

typedef uint64_t qemu_plugin_id_t;
struct qemu_plugin_tb;
enum { NO_REGISTERS = 0 };
extern void qemu_plugin_register_vcpu_tb_trans_cb(qemu_plugin_id_t, void (*)(qemu_plugin_id_t, struct qemu_plugin_tb *));
extern void qemu_plugin_register_vcpu_tb_exec_cb(struct qemu_plugin_tb *, void (*)(unsigned, void *), int, void *);
extern void qemu_plugin_register_atexit_cb(qemu_plugin_id_t, void (*)(qemu_plugin_id_t, void *), void *);
extern size_t qemu_plugin_tb_n_insns(const struct qemu_plugin_tb *);
extern uint64_t qemu_plugin_tb_vaddr(const struct qemu_plugin_tb *);
extern uint64_t qemu_plugin_start_code(void);

int qemu_plugin_version = 1;

struct block {
    uint64_t address, instructions, entered;
    struct block *before;
};

static struct block *last;
static const char *out, *blocks;

static void enter(unsigned cpu, void *block) { ((struct block *)block)->entered++; }

static void translate(qemu_plugin_id_t id, struct qemu_plugin_tb *tb) {
    struct block *block = malloc(sizeof *block);
    if (!block) abort();
    *block = (struct block){qemu_plugin_tb_vaddr(tb), qemu_plugin_tb_n_insns(tb), 0, last};
    last = block;
    qemu_plugin_register_vcpu_tb_exec_cb(tb, enter, NO_REGISTERS, block);
}

static FILE *opened(const char *name) {
    FILE *file = fopen(name, "w");
    if (!file) {
        perror(name);
        exit(1);
    }
    return file;
}

static void closed(const char *name, FILE *file) {
    if (ferror(file) | fclose(file)) {
        perror(name);
        exit(1);
    }
}

static void end(qemu_plugin_id_t id, void *nothing) {
    uint64_t counted = 0;
    for (struct block *block = last; block; block = block->before) counted += block->instructions * block->entered;
    FILE *file = opened(out);
    fprintf(file, "%" PRIu64 "\n", counted);
    closed(out, file);
    if (!blocks) return;
    file = opened(blocks);
    fprintf(file, "%" PRIu64 "\n", qemu_plugin_start_code());
    for (struct block *block = last; block; block = block->before)
        fprintf(file, "%" PRIu64 " %" PRIu64 " %" PRIu64 "\n", block->address, block->instructions, block->entered);
    closed(blocks, file);
}

int qemu_plugin_install(qemu_plugin_id_t id, const void *info, int words, char **word) {
    for (int i = 0; i < words; i++) {
        if (!strncmp(word[i], "out=", 4)) out = strdup(word[i] + 4);
        if (!strncmp(word[i], "blocks=", 7)) blocks = strdup(word[i] + 7);
    }
    if (!out) return 1;
    qemu_plugin_register_vcpu_tb_trans_cb(id, translate);
    qemu_plugin_register_atexit_cb(id, end, NULL);
    return 0;
}
