/* executed.c - a plugin for qemu-user that counts the instructions which a program executes, and says so at its end.
   Built by `count` beside it, which also gives PLUGIN_VERSION: 1 for qemu below 9, 2 from there on.
   The few declarations are those of qemu's plugin interface: Debian ships no header of it. */
#include <inttypes.h>
#include <stddef.h>
#include <stdint.h>
#include <stdio.h>

typedef uint64_t plugin_id;
typedef struct qemu_plugin_tb block;
typedef void (*block_made)(plugin_id, block *);
typedef void (*block_run)(unsigned int cpu, void *size);
typedef void (*plugin_end)(plugin_id, void *);

extern size_t qemu_plugin_tb_n_insns(const block *);
extern void qemu_plugin_register_vcpu_tb_trans_cb(plugin_id, block_made);
extern void qemu_plugin_register_vcpu_tb_exec_cb(block *, block_run, int registers, void *size);
extern void qemu_plugin_register_atexit_cb(plugin_id, plugin_end, void *);

#define SEEN __attribute__((visibility("default")))

SEEN int qemu_plugin_version = PLUGIN_VERSION;
static uint64_t executed;

static void on_run(unsigned int cpu, void *size)
{
    (void)cpu;
    executed += (uintptr_t)size;
}

static void on_made(plugin_id id, block *b)
{
    (void)id;
    qemu_plugin_register_vcpu_tb_exec_cb(b, on_run, 0, (void *)(uintptr_t)qemu_plugin_tb_n_insns(b));
}

static void on_end(plugin_id id, void *unused)
{
    (void)id;
    (void)unused;
    fprintf(stderr, "executed %" PRIu64 "\n", executed);
}

SEEN int qemu_plugin_install(plugin_id id, const void *info, int argc, char **argv)
{
    (void)info;
    (void)argc;
    (void)argv;
    qemu_plugin_register_vcpu_tb_trans_cb(id, on_made);
    qemu_plugin_register_atexit_cb(id, on_end, NULL);
    return 0;
}
