/* Counts the instructions that an x86-64 program runs, function by function: a plugin for qemu's user emulation (oracle/profile.sh).
 * Each time the program makes the system call MARK, what was counted since the last one is written to the file that COUNTS names:
 * a line `mark`, then a line for each function with its count. */
#include <stdint.h>
#include <stdio.h>
#include <stdlib.h>
#include <string.h>

/* As qemu's own header declares them. */
typedef uint64_t Id;
struct qemu_plugin_tb;
struct qemu_plugin_insn;
enum Op { ADD };
extern void qemu_plugin_register_vcpu_tb_trans_cb(Id, void (*)(Id, struct qemu_plugin_tb *));
extern size_t qemu_plugin_tb_n_insns(const struct qemu_plugin_tb *);
extern struct qemu_plugin_insn *qemu_plugin_tb_get_insn(const struct qemu_plugin_tb *, size_t);
extern const char *qemu_plugin_insn_symbol(const struct qemu_plugin_insn *);
extern void qemu_plugin_register_vcpu_tb_exec_inline(struct qemu_plugin_tb *, enum Op, void *, uint64_t);
extern void qemu_plugin_register_vcpu_syscall_cb(
    Id, void (*)(Id, unsigned, int64_t, uint64_t, uint64_t, uint64_t, uint64_t, uint64_t, uint64_t, uint64_t, uint64_t));
int qemu_plugin_version = 1;

enum { MARK = 100000, MOST = 20000 };
static struct { char *name; uint64_t count; } function[MOST];
static size_t functions;
static FILE *out;

static uint64_t *counter(const char *name) {
  size_t i = 0;
  while (i < functions && strcmp(function[i].name, name)) i++;
  if (i == functions) {
    if (functions == MOST) return &function[0].count;
    function[functions++].name = strdup(name);
  }
  return &function[i].count;
}

/* A stretch of instructions without a jump is about to be translated: each run of it adds its length to its function. */
static void translated(Id id, struct qemu_plugin_tb *stretch) {
  const char *name = qemu_plugin_insn_symbol(qemu_plugin_tb_get_insn(stretch, 0));
  qemu_plugin_register_vcpu_tb_exec_inline(stretch, ADD, counter(name ? name : "?"), qemu_plugin_tb_n_insns(stretch));
}

static void called(Id id, unsigned cpu, int64_t number, uint64_t a, uint64_t b, uint64_t c, uint64_t d, uint64_t e, uint64_t f, uint64_t g,
                   uint64_t h) {
  if (number != MARK) return;
  fprintf(out, "mark\n");
  for (size_t i = 0; i < functions; i++) {
    if (function[i].count) fprintf(out, "%llu %s\n", (unsigned long long)function[i].count, function[i].name);
    function[i].count = 0;
  }
  fflush(out);
}

int qemu_plugin_install(Id id, const void *info, int argc, char **argv) {
  const char *path = getenv("COUNTS");
  out = path ? fopen(path, "w") : NULL;
  if (!out) return 1;
  qemu_plugin_register_vcpu_tb_trans_cb(id, translated);
  qemu_plugin_register_vcpu_syscall_cb(id, called);
  return 0;
}
