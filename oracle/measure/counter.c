// A plugin of QEMU's user emulation that counts the instructions of the program it runs. The program asks
// by system calls that no kernel has, with a descriptor as their argument: the answer is written there, and
// the call itself fails as it would anywhere.
//
// QEMU runs a program in blocks without a jump inside, and a system call ends its block: every instruction
// before the call is counted, and none behind it. No header is needed: the few functions used have been the
// same in every release of QEMU that has plugins; only the version to name differs (1 before QEMU 9, then 2).
#include <stdint.h>
#include <stdio.h>
#include <stdlib.h>
#include <string.h>
#include <unistd.h>

enum { ASK_COUNT = 0x6F72676E, ASK_FUNCTIONS = 0x6F72676F }; // measure/gauge.rs has them too
enum { READS_NO_REGISTERS = 0 };

typedef uint64_t plugin_id;
struct qemu_plugin_tb;
struct qemu_plugin_insn;
size_t qemu_plugin_tb_n_insns(const struct qemu_plugin_tb *);
struct qemu_plugin_insn *qemu_plugin_tb_get_insn(const struct qemu_plugin_tb *, size_t);
const char *qemu_plugin_insn_symbol(const struct qemu_plugin_insn *);
void qemu_plugin_register_vcpu_tb_trans_cb(plugin_id, void (*)(plugin_id, struct qemu_plugin_tb *));
void qemu_plugin_register_vcpu_tb_exec_cb(struct qemu_plugin_tb *, void (*)(unsigned, void *), int, void *);
void qemu_plugin_register_vcpu_syscall_cb(plugin_id, void (*)(plugin_id, unsigned, int64_t, uint64_t,
                                                              uint64_t, uint64_t, uint64_t, uint64_t,
                                                              uint64_t, uint64_t, uint64_t));
int qemu_plugin_version = PLUGIN_VERSION;

struct function {
    struct function *next;
    uint64_t count;
    char name[];
};

struct block {
    uint64_t instructions;
    struct function *function;
};

static uint64_t count;
static struct function *functions;

static void *room(size_t bytes)
{
    void *memory = calloc(1, bytes);
    if (!memory) abort();
    return memory;
}

// The function of a name; instructions outside the program's own file have none, and are the C library's.
static struct function *function_named(const char *name)
{
    if (!name || !*name) name = "(C library)";
    for (struct function *f = functions; f; f = f->next)
        if (!strcmp(f->name, name)) return f;
    struct function *f = room(sizeof *f + strlen(name) + 1);
    strcpy(f->name, name);
    f->next = functions;
    functions = f;
    return f;
}

static void on_execution(unsigned cpu, void *data)
{
    (void)cpu;
    struct block *block = data;
    count += block->instructions;
    block->function->count += block->instructions;
}

static void on_translation(plugin_id id, struct qemu_plugin_tb *tb)
{
    (void)id;
    struct block *block = room(sizeof *block);
    block->instructions = qemu_plugin_tb_n_insns(tb);
    block->function = function_named(qemu_plugin_insn_symbol(qemu_plugin_tb_get_insn(tb, 0)));
    qemu_plugin_register_vcpu_tb_exec_cb(tb, on_execution, READS_NO_REGISTERS, block);
}

// A line for each function that ran since the last such call, its count and its name; then an empty line.
static void tell_functions(int descriptor)
{
    for (struct function *f = functions; f; f = f->next) {
        if (f->count) dprintf(descriptor, "%llu %s\n", (unsigned long long)f->count, f->name);
        f->count = 0;
    }
    dprintf(descriptor, "\n");
}

static void on_system_call(plugin_id id, unsigned cpu, int64_t number, uint64_t descriptor, uint64_t b,
                           uint64_t c, uint64_t d, uint64_t e, uint64_t f, uint64_t g, uint64_t h)
{
    (void)id, (void)cpu, (void)b, (void)c, (void)d, (void)e, (void)f, (void)g, (void)h;
    if (number == ASK_COUNT && write((int)descriptor, &count, sizeof count) != sizeof count) abort();
    if (number == ASK_FUNCTIONS) tell_functions((int)descriptor);
}

int qemu_plugin_install(plugin_id id, const void *info, int words, char **word)
{
    (void)info, (void)words, (void)word;
    qemu_plugin_register_vcpu_tb_trans_cb(id, on_translation);
    qemu_plugin_register_vcpu_syscall_cb(id, on_system_call);
    return 0;
}
