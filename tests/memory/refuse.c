/* Refuses growth on demand, for tests. Loaded before the C library (LD_PRELOAD); it changes nothing for a program that
 * uses none of the requests below.
 *
 * A growth is a call of malloc, calloc or realloc between the beginning and the end of main, by the program or by the C
 * library on its behalf, as for a new thread. A realloc counts even if it asks for no more than before. Memory that the
 * C library takes from the kernel by itself, as a thread's stack, is no growth, and nor is memory requested before
 * main.
 *
 * - After a request for 77,000,000 + N bytes, N from 1 to 2,000, the Nth growth is refused, once.
 * - If the environment has REFUSE_GROWTH=N, the Nth growth of the whole run is refused, once.
 *
 * A refusal writes a line to descriptor 99, if it is open.
 *
 * If the environment has COUNT_KEPT, standard error gets a line at the end of main: the number of blocks given minus
 * those given back since main began. */
#define _GNU_SOURCE
#include <dlfcn.h>
#include <errno.h>
#include <stdatomic.h>
#include <stddef.h>
#include <stdio.h>
#include <stdlib.h>

#define COUNTING 77000000
#define MOST 2000
#define REPORTS 99

void *__libc_malloc(size_t);
void *__libc_realloc(void *, size_t);
void *__libc_calloc(size_t, size_t);
void __libc_free(void *);

static atomic_bool in_main;
/* The number of the growth that is refused, counted from now: 1 is the next, 0 or less is none. */
static atomic_long until;
/* The number of blocks given minus the number given back since main began. */
static atomic_long kept;

static void *given(void *block) {
    if (block && atomic_load(&in_main)) atomic_fetch_add(&kept, 1);
    return block;
}

/* Whether this growth is refused; if so, the error is that of a malloc that has no memory. */
static int refuses(void) {
    if (!atomic_load(&in_main) || atomic_load(&until) <= 0 || atomic_fetch_sub(&until, 1) != 1) return 0;
    dprintf(REPORTS, "a growth was refused\n");
    errno = ENOMEM;
    return 1;
}

void *malloc(size_t size) {
    if (refuses()) return NULL;
    if (COUNTING < size && size <= COUNTING + MOST) atomic_store(&until, (long)(size - COUNTING));
    return given(__libc_malloc(size));
}

void *realloc(void *block, size_t size) {
    if (refuses()) return NULL;
    return block ? __libc_realloc(block, size) : given(__libc_realloc(block, size));
}

void *calloc(size_t count, size_t size) { return refuses() ? NULL : given(__libc_calloc(count, size)); }

void free(void *block) {
    if (block && atomic_load(&in_main)) atomic_fetch_sub(&kept, 1);
    __libc_free(block);
}

typedef int Main(int, char **, char **);
typedef int Start(Main *, int, char **, void (*)(void), void (*)(void), void (*)(void), void *);

static Main *program;

/* The program's main; growths count from its beginning to its end. */
static int counted(int words, char **texts, char **environment) {
    const char *number = getenv("REFUSE_GROWTH");
    if (number) atomic_store(&until, atol(number));
    atomic_store(&in_main, 1);
    int status = program(words, texts, environment);
    atomic_store(&in_main, 0);
    if (getenv("COUNT_KEPT")) fprintf(stderr, "blocks kept: %ld\n", atomic_load(&kept));
    return status;
}

/* The C library's first call, which is passed main. */
int __libc_start_main(Main *main, int words, char **texts, void (*begin)(void), void (*end)(void), void (*unload)(void),
                      void *stack) {
    Start *start = (Start *)dlsym(RTLD_NEXT, "__libc_start_main");
    program = main;
    return start(counted, words, texts, begin, end, unload, stack);
}
