/* Counts the instructions of a program from the moment its main begins: a plugin of Debian's emulator, qemu-user, which writes the
   number into its log.
     qemu-x86_64 -plugin target/count.so -d plugin -D LOG PROGRAM ..
   Debian has no header for plugins, so what is used of it is declared here. */
#include <inttypes.h>
#include <stdio.h>
#include <string.h>

struct block;
struct instruction;
void qemu_plugin_register_vcpu_tb_trans_cb(uint64_t id, void (*translated)(uint64_t id, struct block *));
void qemu_plugin_register_vcpu_tb_exec_inline(struct block *, int operation, void *number, uint64_t value);
void qemu_plugin_register_atexit_cb(uint64_t id, void (*ended)(uint64_t id, void *), void *);
size_t qemu_plugin_tb_n_insns(const struct block *);
struct instruction *qemu_plugin_tb_get_insn(const struct block *, size_t);
const char *qemu_plugin_insn_symbol(const struct instruction *);
void qemu_plugin_outs(const char *);
enum { ADD = 0 };

int qemu_plugin_version = 1;
static uint64_t executed, before_main;

/* A block is translated when it is first about to be executed, so main begins where its first block is translated. */
static void translated(uint64_t id, struct block *block)
{
    const char *name = qemu_plugin_insn_symbol(qemu_plugin_tb_get_insn(block, 0));
    if (!before_main && name && strcmp(name, "main") == 0)
        before_main = executed;
    qemu_plugin_register_vcpu_tb_exec_inline(block, ADD, &executed, qemu_plugin_tb_n_insns(block));
}

/* Says nothing of a program whose main was not seen. */
static void ended(uint64_t id, void *nothing)
{
    char line[40];
    snprintf(line, sizeof line, "since main: %" PRIu64 "\n", executed - before_main);
    if (before_main)
        qemu_plugin_outs(line);
}

int qemu_plugin_install(uint64_t id, const void *about, int count, char **words)
{
    qemu_plugin_register_vcpu_tb_trans_cb(id, translated);
    qemu_plugin_register_atexit_cb(id, ended, NULL);
    return 0;
}
