/* A plugin of QEMU's user emulator: counts the instructions that the emulated program executes.
 *   qemu-x86_64 -plugin ./instructions.so,count=FILE PROGRAM
 * Where the program makes the system call ASK, which Linux does not have, the count so far is written to FILE: eight bytes, the lowest first.
 * compare/run compiles it; compare/src/benchmark/count.rs asks. It speaks version 1 of QEMU's plugin interface, whose declarations are written out
 * here, as Debian packages no header.
 */
#include <fcntl.h>
#include <stddef.h>
#include <stdint.h>
#include <stdio.h>
#include <string.h>
#include <unistd.h>

#define ASK 7777777

struct block;       /* a stretch of instructions without a jump, which the emulator translates at once */
struct instruction; /* one of them */

typedef void translated(uint64_t plugin, struct block *block);
typedef void called(uint64_t plugin, unsigned processor, int64_t number, uint64_t a, uint64_t b, uint64_t c, uint64_t d, uint64_t e, uint64_t f,
                    uint64_t g, uint64_t h);

extern size_t qemu_plugin_tb_n_insns(const struct block *block);
extern void qemu_plugin_register_vcpu_tb_trans_cb(uint64_t plugin, translated *callback);
extern struct instruction *qemu_plugin_tb_get_insn(const struct block *block, size_t index);
extern void qemu_plugin_register_vcpu_insn_exec_inline(struct instruction *instruction, int operation, void *place, uint64_t number);
extern void qemu_plugin_register_vcpu_syscall_cb(uint64_t plugin, called *callback);

enum { ADD = 0 }; /* the only operation: adds the number to the 64 bits at the place */

int qemu_plugin_version = 1;

static uint64_t executed;
static int file = -1;

/* Has 1 added each time that an instruction is executed. Not by whole blocks: the length that is given for a block at the end of a page of memory can
 * hold an instruction that belongs to the next. */
static void count(uint64_t plugin, struct block *block)
{
    (void)plugin;
    for (size_t i = 0; i < qemu_plugin_tb_n_insns(block); i++)
        qemu_plugin_register_vcpu_insn_exec_inline(qemu_plugin_tb_get_insn(block, i), ADD, &executed, 1);
}

/* Writes the count where it is asked for. */
static void answer(uint64_t plugin, unsigned processor, int64_t number, uint64_t a, uint64_t b, uint64_t c, uint64_t d, uint64_t e, uint64_t f,
                   uint64_t g, uint64_t h)
{
    (void)plugin, (void)processor, (void)a, (void)b, (void)c, (void)d, (void)e, (void)f, (void)g, (void)h;
    if (number != ASK)
        return;
    unsigned char bytes[8];
    for (int i = 0; i < 8; i++)
        bytes[i] = (unsigned char)(executed >> 8 * i);
    if (pwrite(file, bytes, sizeof bytes, 0) != sizeof bytes)
        perror("instructions: the count cannot be written");
}

/* What the emulator calls first, with the words after the plugin's name. */
int qemu_plugin_install(uint64_t plugin, const void *emulator, int words, char **word)
{
    (void)emulator;
    if (words != 1 || strncmp(word[0], "count=", 6) != 0) {
        fputs("instructions: the words are count=FILE\n", stderr);
        return -1;
    }
    file = open(word[0] + 6, O_WRONLY | O_CREAT | O_TRUNC | O_CLOEXEC, 0666);
    if (file < 0) {
        perror(word[0] + 6);
        return -1;
    }
    qemu_plugin_register_vcpu_tb_trans_cb(plugin, count);
    qemu_plugin_register_vcpu_syscall_cb(plugin, answer);
    return 0;
}
