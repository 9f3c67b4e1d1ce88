/* Refuses memory to the package's library, for test-memory.R: it is loaded before the C library (LD_PRELOAD), and then
 * loaded by R, which sets the request that is refused. Requests of R itself are never refused. */
#define _GNU_SOURCE
#include <dlfcn.h>
#include <stddef.h>
#include <string.h>

void *__libc_malloc(size_t);
void *__libc_realloc(void *, size_t);
void *__libc_calloc(size_t, size_t);

/* The number of the request that is refused, counted from now, or 0; and whether those after it are refused, too. */
static int until, on;
static int refusals;

/* Sets which request is refused, and gives the number of those that were refused before. */
void refuse_from(int *number, int *all, int *before) {
    *before = refusals;
    until = *number;
    on = *all;
    refusals = 0;
}

static int refuses(void *caller) {
    Dl_info from;
    if (until == 0 || !dladdr(caller, &from) || !from.dli_fname || !strstr(from.dli_fname, "votingboard.so")) return 0;
    if (until > 1) return until--, 0;
    if (!on) until = 0;
    refusals++;
    return 1;
}

void *malloc(size_t size) { return refuses(__builtin_return_address(0)) ? NULL : __libc_malloc(size); }

void *realloc(void *block, size_t size) {
    return refuses(__builtin_return_address(0)) ? NULL : __libc_realloc(block, size);
}

void *calloc(size_t count, size_t size) {
    return refuses(__builtin_return_address(0)) ? NULL : __libc_calloc(count, size);
}
