/* A plugin for qemu-x86_64 in user mode: counts the instructions that the program runs from each first mark to the
   next, and writes the count as a line to file descriptor 3. A mark is the system call `getppid`.
       gcc -shared -fPIC -O2 -o counter.so counter.c
       qemu-x86_64 -plugin ./counter.so PROGRAM 3> COUNTS */
#define _GNU_SOURCE
#include <inttypes.h>
#include <stdbool.h>
#include <stddef.h>
#include <stdio.h>

enum { COUNTS = 3, GETPPID = 110 };

/* The part of qemu's interface for plugins, version 1, that is used here: Debian has no package with its header. */
enum { INLINE_ADD_U64 = 0 };
typedef uint64_t plugin;
struct qemu_plugin_tb;
struct qemu_plugin_insn;
typedef void translated(plugin, struct qemu_plugin_tb *);
typedef void called(plugin, unsigned cpu, int64_t number, uint64_t, uint64_t, uint64_t, uint64_t, uint64_t, uint64_t,
                    uint64_t, uint64_t);
void qemu_plugin_register_vcpu_tb_trans_cb(plugin, translated *);
void qemu_plugin_register_vcpu_syscall_cb(plugin, called *);
size_t qemu_plugin_tb_n_insns(const struct qemu_plugin_tb *);
struct qemu_plugin_insn *qemu_plugin_tb_get_insn(const struct qemu_plugin_tb *, size_t);
void qemu_plugin_register_vcpu_insn_exec_inline(struct qemu_plugin_insn *, int operation, void *, uint64_t);
int qemu_plugin_version = 1;

static uint64_t count;
static bool between_marks;

/* Each instruction of a translated block adds one by itself, since a block may be left before its end. */
static void count_block(plugin id, struct qemu_plugin_tb *block) {
    (void)id;
    for (size_t i = 0; i < qemu_plugin_tb_n_insns(block); i++) {
        qemu_plugin_register_vcpu_insn_exec_inline(qemu_plugin_tb_get_insn(block, i), INLINE_ADD_U64, &count, 1);
    }
}

static void mark(plugin id, unsigned cpu, int64_t number, uint64_t a, uint64_t b, uint64_t c, uint64_t d, uint64_t e,
                 uint64_t f, uint64_t g, uint64_t h) {
    (void)id, (void)cpu, (void)a, (void)b, (void)c, (void)d, (void)e, (void)f, (void)g, (void)h;
    if (number != GETPPID) {
        return;
    }
    if (between_marks) {
        dprintf(COUNTS, "%" PRIu64 "\n", count);
    }
    between_marks = !between_marks;
    count = 0;
}

int qemu_plugin_install(plugin id, const void *info, int argc, char **argv) {
    (void)info, (void)argc, (void)argv;
    qemu_plugin_register_vcpu_tb_trans_cb(id, count_block);
    qemu_plugin_register_vcpu_syscall_cb(id, mark);
    return 0;
}
