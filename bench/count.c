/* A plugin of qemu-user: counts the instructions that the program executes, and writes their number to standard error at its end.
 * The functions of qemu are declared here as its plugin interface has them. VERSION is the version of that interface. */
#include <inttypes.h>
#include <stdio.h>

struct qemu_info_t;
struct qemu_plugin_tb;
struct qemu_plugin_insn;
enum qemu_plugin_cb_flags { QEMU_PLUGIN_CB_NO_REGS };

/* A block is a run of instructions that is executed from its first to its last. */
size_t qemu_plugin_tb_n_insns(const struct qemu_plugin_tb *block);
struct qemu_plugin_insn *qemu_plugin_tb_get_insn(const struct qemu_plugin_tb *block, size_t index);
void qemu_plugin_register_vcpu_tb_trans_cb(uint64_t id, void (*made)(uint64_t id, struct qemu_plugin_tb *block));
void qemu_plugin_register_vcpu_tb_exec_cb(struct qemu_plugin_tb *block, void (*executed)(unsigned processor, void *data),
                                          enum qemu_plugin_cb_flags flags, void *data);
void qemu_plugin_register_vcpu_insn_exec_cb(struct qemu_plugin_insn *instruction, void (*executed)(unsigned processor, void *data),
                                            enum qemu_plugin_cb_flags flags, void *data);
void qemu_plugin_register_atexit_cb(uint64_t id, void (*ended)(uint64_t id, void *data), void *data);

int qemu_plugin_version = VERSION;

static uint64_t instructions;

static void executed(unsigned processor, void *number)
{
    (void)processor;
    instructions += (uintptr_t)number;
}

/* The last instruction is counted by itself. Where it lies across two pages, qemu may leave it to the next block, and this block is
 * said to have it all the same. */
static void made(uint64_t id, struct qemu_plugin_tb *block)
{
    size_t others = qemu_plugin_tb_n_insns(block) - 1;
    (void)id;
    qemu_plugin_register_vcpu_tb_exec_cb(block, executed, QEMU_PLUGIN_CB_NO_REGS, (void *)(uintptr_t)others);
    qemu_plugin_register_vcpu_insn_exec_cb(qemu_plugin_tb_get_insn(block, others), executed, QEMU_PLUGIN_CB_NO_REGS,
                                           (void *)(uintptr_t)1);
}

static void ended(uint64_t id, void *data)
{
    (void)id;
    (void)data;
    fprintf(stderr, "%" PRIu64 "\n", instructions);
}

int qemu_plugin_install(uint64_t id, const struct qemu_info_t *info, int argc, char **argv)
{
    (void)info;
    (void)argc;
    (void)argv;
    qemu_plugin_register_vcpu_tb_trans_cb(id, made);
    qemu_plugin_register_atexit_cb(id, ended, NULL);
    return 0;
}
