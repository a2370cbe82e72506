/*
 * A plugin of qemu: counts the instructions that a program takes, and writes the count to qemu's log when it ends.
 *
 * Debian has no header for plugins, so what is used of it is declared here: version 1, that of qemu 6 to 8. A block is what
 * qemu translates at once: instructions that run one after the other, the last of which alone can branch. An instruction whose
 * condition does not hold, in the block of an IT, counts like any other.
 */
#include <inttypes.h>
#include <stddef.h>
#include <stdint.h>
#include <stdio.h>

struct qemu_plugin_tb;
void qemu_plugin_register_vcpu_tb_trans_cb(uint64_t id, void (*f)(uint64_t id, struct qemu_plugin_tb *block));
void qemu_plugin_register_vcpu_tb_exec_cb(struct qemu_plugin_tb *block, void (*f)(unsigned cpu, void *data), int registers, void *data);
void qemu_plugin_register_atexit_cb(uint64_t id, void (*f)(uint64_t id, void *data), void *data);
size_t qemu_plugin_tb_n_insns(const struct qemu_plugin_tb *block);
void qemu_plugin_outs(const char *text);

int qemu_plugin_version = 1;
static uint64_t count;

static void runs(unsigned cpu, void *instructions)
{
	count += (uintptr_t)instructions;
}

static void translated(uint64_t id, struct qemu_plugin_tb *block)
{
	qemu_plugin_register_vcpu_tb_exec_cb(block, runs, 0, (void *)qemu_plugin_tb_n_insns(block));
}

static void ends(uint64_t id, void *data)
{
	char text[32];
	snprintf(text, sizeof text, "%" PRIu64 "\n", count);
	qemu_plugin_outs(text);
}

int qemu_plugin_install(uint64_t id, const void *info, int argc, char **argv)
{
	qemu_plugin_register_vcpu_tb_trans_cb(id, translated);
	qemu_plugin_register_atexit_cb(id, ends, NULL);
	return 0;
}
