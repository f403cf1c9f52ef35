/* A QEMU plugin that counts the guest instructions a program executes, and writes the count to a
   file when it ends: qemu-x86_64 -plugin file=count.so,out=FILE[,call=1] PROGRAM .. It measures no
   time and knows nothing of the program.

   It adds 1 for each instruction, by code put in line where QEMU offers that (up to 8.2), else by a
   call; call=1 asks for the call, which is slower and must give the same count (bench/counting
   tests that). It does not add up the lengths of translated blocks: QEMU 7.2 counts an instruction
   that lies across the end of a page with the block before it and again with its own, so that a
   loop's count would depend on where the linker put it. A REP string instruction counts once for
   each of its rounds.

   Debian packages no qemu-plugin.h, so the few declarations needed stand here. Of what they
   declare, only the number in qemu_plugin_version moves: 1 up to QEMU 8.2, 2 and more later. */

#include <stddef.h>
#include <stdint.h>
#include <stdio.h>
#include <stdlib.h>
#include <string.h>

typedef uint64_t qemu_plugin_id_t;
struct qemu_info;
struct qemu_plugin_tb;
struct qemu_plugin_insn;
enum qemu_plugin_cb_flags { QEMU_PLUGIN_CB_NO_REGS, QEMU_PLUGIN_CB_R_REGS, QEMU_PLUGIN_CB_RW_REGS };
enum qemu_plugin_op { QEMU_PLUGIN_INLINE_ADD_U64 };
typedef void (*tb_trans_cb)(qemu_plugin_id_t, struct qemu_plugin_tb *);
typedef void (*vcpu_udata_cb)(unsigned int, void *);
typedef void (*udata_cb)(qemu_plugin_id_t, void *);

void qemu_plugin_register_vcpu_tb_trans_cb(qemu_plugin_id_t, tb_trans_cb);
void qemu_plugin_register_vcpu_insn_exec_cb(struct qemu_plugin_insn *, vcpu_udata_cb, enum qemu_plugin_cb_flags, void *);
void qemu_plugin_register_vcpu_insn_exec_inline(struct qemu_plugin_insn *, enum qemu_plugin_op, void *, uint64_t) __attribute__((weak));
void qemu_plugin_register_atexit_cb(qemu_plugin_id_t, udata_cb, void *);
size_t qemu_plugin_tb_n_insns(const struct qemu_plugin_tb *);
struct qemu_plugin_insn *qemu_plugin_tb_get_insn(const struct qemu_plugin_tb *, size_t);

#define EXPORT __attribute__((visibility("default")))
#ifndef PLUGIN_VERSION
#define PLUGIN_VERSION 1
#endif
EXPORT int qemu_plugin_version = PLUGIN_VERSION;

static uint64_t executed;
static int call;
static char *out;

static void one(unsigned int cpu, void *none)
{
    (void)cpu;
    (void)none;
    executed++;
}

static void translated(qemu_plugin_id_t id, struct qemu_plugin_tb *tb)
{
    size_t n = qemu_plugin_tb_n_insns(tb);
    (void)id;
    for (size_t i = 0; i < n; i++) {
        struct qemu_plugin_insn *insn = qemu_plugin_tb_get_insn(tb, i);
        if (call || !qemu_plugin_register_vcpu_insn_exec_inline)
            qemu_plugin_register_vcpu_insn_exec_cb(insn, one, QEMU_PLUGIN_CB_NO_REGS, NULL);
        else
            qemu_plugin_register_vcpu_insn_exec_inline(insn, QEMU_PLUGIN_INLINE_ADD_U64, &executed, 1);
    }
}

static void ended(qemu_plugin_id_t id, void *none)
{
    FILE *f = fopen(out, "w");
    (void)id;
    (void)none;
    if (!f) return;
    fprintf(f, "%llu\n", (unsigned long long)executed);
    fclose(f);
}

EXPORT int qemu_plugin_install(qemu_plugin_id_t id, const struct qemu_info *info, int argc, char **argv)
{
    (void)info;
    for (int i = 0; i < argc; i++) {
        if (!strncmp(argv[i], "out=", 4)) out = strdup(argv[i] + 4);
        if (!strcmp(argv[i], "call=1")) call = 1;
    }
    if (!out) return -1;
    qemu_plugin_register_vcpu_tb_trans_cb(id, translated);
    qemu_plugin_register_atexit_cb(id, ended, NULL);
    return 0;
}
