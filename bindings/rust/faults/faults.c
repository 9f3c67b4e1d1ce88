/* The library over a malloc that fails once where a test asks for it, and with a call that a test has trapped: these
 * are the calls that bindings/rust/check renames in the library. */
#include "board.h"
#include <stdlib.h>

static _Thread_local long before = -1, kept = 0;
static _Thread_local int trapped = 0;

/* Whether this allocation fails. */
static int fails(void) { return before >= 0 && before-- == 0; }
static void *counted(void *made) { return kept += made != NULL, made; }
void *faulty_malloc(size_t size) { return counted(fails() ? NULL : malloc(size)); }
void *faulty_realloc(void *at, size_t size) {
    void *made = fails() ? NULL : realloc(at, size);
    return at ? made : counted(made);
}
void faulty_free(void *at) { kept -= at != NULL, free(at); }
uint8_t sound_apply(struct board_register *handle, const struct board_command *command, uint32_t *accepted);

/* Lets this number of allocations pass and fails the next one; none, if the number is below 0. Returns what is left of
 * the number, so one below 0 if an allocation failed. */
long faults_after(long number) {
    long left = before;
    before = number;
    return left;
}

/* How many blocks of memory the library has. */
long faults_kept(void) { return kept; }

/* Every command that follows is trapped, or none. */
void faults_trap(int on) { trapped = on; }

uint8_t board_register_apply(struct board_register *handle, const struct board_command *command, uint32_t *accepted) {
    return trapped ? BOARD_TRAPPED : sound_apply(handle, command, accepted);
}
