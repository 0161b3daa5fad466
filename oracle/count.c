/* Counts the instructions that an x86-64 program runs: a plugin for qemu's user emulation, 7.2 or newer (oracle/count.sh).
 * A time under the emulator depends on where pages end and on what else the machine does; a count does not.
 * Each time the program makes the system call MARK, the count up to then is written to the file that COUNTS names, a line each. */
#include <stdint.h>
#include <stdio.h>
#include <stdlib.h>

/* As qemu's own header declares them. */
typedef uint64_t Id;
struct qemu_plugin_tb;
enum Op { ADD };
extern void qemu_plugin_register_vcpu_tb_trans_cb(Id, void (*)(Id, struct qemu_plugin_tb *));
extern size_t qemu_plugin_tb_n_insns(const struct qemu_plugin_tb *);
extern void qemu_plugin_register_vcpu_tb_exec_inline(struct qemu_plugin_tb *, enum Op, void *, uint64_t);
extern void qemu_plugin_register_vcpu_syscall_cb(
    Id, void (*)(Id, unsigned, int64_t, uint64_t, uint64_t, uint64_t, uint64_t, uint64_t, uint64_t, uint64_t, uint64_t));
int qemu_plugin_version = 1;

enum { MARK = 100000 };
static uint64_t count;
static FILE *out;

/* A stretch of instructions without a jump is about to be translated: each run of it adds its length. */
static void translated(Id id, struct qemu_plugin_tb *stretch) {
  qemu_plugin_register_vcpu_tb_exec_inline(stretch, ADD, &count, qemu_plugin_tb_n_insns(stretch));
}

static void called(Id id, unsigned cpu, int64_t number, uint64_t a, uint64_t b, uint64_t c, uint64_t d, uint64_t e, uint64_t f, uint64_t g,
                   uint64_t h) {
  if (number != MARK) return;
  fprintf(out, "%llu\n", (unsigned long long)count);
  fflush(out);
}

int qemu_plugin_install(Id id, const void *info, int argc, char **argv) {
  const char *path = getenv("COUNTS");
  out = path ? fopen(path, "w") : NULL;
  if (!out) return 1;
  qemu_plugin_register_vcpu_tb_trans_cb(id, translated);
  qemu_plugin_register_vcpu_syscall_cb(id, called);
  return 0;
}
