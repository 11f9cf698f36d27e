/* A plugin for qemu-user that counts the instructions which the guest executes, and writes the count to the file that INSNS_FILE names.
 * No package has the plugin interface's header, so what is used of it is declared here. */
#include <inttypes.h>
#include <stdio.h>
#include <stdlib.h>

struct qemu_plugin_tb;
typedef uint64_t plugin_id;
enum { ADD_TO_NUMBER = 0 };

void qemu_plugin_register_vcpu_tb_trans_cb(plugin_id, void (*)(plugin_id, struct qemu_plugin_tb *));
void qemu_plugin_register_vcpu_tb_exec_inline(struct qemu_plugin_tb *, int, void *, uint64_t);
void qemu_plugin_register_atexit_cb(plugin_id, void (*)(plugin_id, void *), void *);
size_t qemu_plugin_tb_n_insns(const struct qemu_plugin_tb *);

int qemu_plugin_version = 1;

static uint64_t executed;

/* Each block, when it runs, adds its number of instructions. */
static void block_made(plugin_id id, struct qemu_plugin_tb *block)
{
    (void) id;
    qemu_plugin_register_vcpu_tb_exec_inline(block, ADD_TO_NUMBER, &executed, qemu_plugin_tb_n_insns(block));
}

static void at_exit(plugin_id id, void *unused)
{
    const char *name = getenv("INSNS_FILE");
    FILE *file = name != NULL ? fopen(name, "w") : NULL;
    (void) id;
    (void) unused;
    if (file == NULL) return;
    fprintf(file, "%" PRIu64 "\n", executed);
    fclose(file);
}

int qemu_plugin_install(plugin_id id, const void *info, int count, char **words)
{
    (void) info;
    (void) count;
    (void) words;
    qemu_plugin_register_vcpu_tb_trans_cb(id, block_made);
    qemu_plugin_register_atexit_cb(id, at_exit, NULL);
    return 0;
}
