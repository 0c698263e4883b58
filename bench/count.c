// A plugin for the emulator qemu 7.2: counts the instructions that a program of one thread takes, and logs the number at its end as
// callgrind does. What it declares is the emulator's, by the names that the emulator gives it.
#include <inttypes.h>
#include <stddef.h>
#include <stdint.h>
#include <stdio.h>

struct block;
struct instruction;
enum { ADD };

int qemu_plugin_version = 1;
void qemu_plugin_register_vcpu_tb_trans_cb(uint64_t id, void (*met)(uint64_t id, struct block *b));
size_t qemu_plugin_tb_n_insns(const struct block *b);
struct instruction *qemu_plugin_tb_get_insn(const struct block *b, size_t i);
void qemu_plugin_register_vcpu_insn_exec_inline(struct instruction *i, int what, void *number, uint64_t by);
void qemu_plugin_register_atexit_cb(uint64_t id, void (*ends)(uint64_t id, void *data), void *data);
void qemu_plugin_outs(const char *text);

static uint64_t count;

// A block of code is met for the first time: each of its instructions is to add 1 whenever it is executed.
static void met(uint64_t id, struct block *b) {
    (void)id;
    for (size_t i = 0; i < qemu_plugin_tb_n_insns(b); i++)
        qemu_plugin_register_vcpu_insn_exec_inline(qemu_plugin_tb_get_insn(b, i), ADD, &count, 1);
}

static void ends(uint64_t id, void *data) {
    (void)id, (void)data;
    char text[64];
    snprintf(text, sizeof text, "Collected : %" PRIu64 "\n", count);
    qemu_plugin_outs(text);
}

int qemu_plugin_install(uint64_t id, const void *info, int argc, char **argv) {
    (void)info, (void)argc, (void)argv;
    qemu_plugin_register_vcpu_tb_trans_cb(id, met);
    qemu_plugin_register_atexit_cb(id, ends, NULL);
    return 0;
}
