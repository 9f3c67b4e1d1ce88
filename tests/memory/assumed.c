/* The C functions whose contracts the proof of `board` assumes, at their limits (docs/PROOF.md names them):
 *
 *     assumed FULL            FULL is a device that is full; prints 'N passed'
 *
 * It is linked with the toolchain's own definitions, as the program is. */
#define _GNU_SOURCE
#include <errno.h>
#include <fcntl.h>
#include <signal.h>
#include <stdint.h>
#include <stdio.h>
#include <stdlib.h>
#include <string.h>
#include <sys/mman.h>
#include <sys/time.h>
#include <unistd.h>

enum { PATH = 4096, SMALL = 8, LARGE = 1 << 20, MOST_ALIGNED = 16 };

/* Whether memory was given, and where. */
struct tried {
    size_t ok;
    unsigned char *at;
};

struct tried rattle_alloc(size_t bytes, size_t align);
struct tried rattle_realloc(void *at, size_t kept, size_t bytes, size_t align);
void rattle_dealloc(void *at);
int rattle_errno(void);
void rattle_set_errno(int error);
intptr_t rattle_arg(size_t number, unsigned char *to, size_t len);
intptr_t rattle_env(const char *name, unsigned char *to, size_t len);
intptr_t rattle_env_at(size_t number, unsigned char *to, size_t len);

static int passed;
static unsigned char large[LARGE];

static void check(int holds, const char *what) {
    if (!holds) {
        fprintf(stderr, "%s\n", what);
        exit(1);
    }
    passed++;
}

/* One call in which an alarm interrupts a read or a write that waits. */
static void on_alarm(int signal) { (void)signal; }

static void set_alarm(void) {
    const struct sigaction action = {.sa_handler = on_alarm};
    const struct itimerval soon = {.it_value = {.tv_usec = 20000}, .it_interval = {.tv_usec = 20000}};
    sigaction(SIGALRM, &action, NULL);
    setitimer(ITIMER_REAL, &soon, NULL);
}

static void clear_alarm(void) {
    const struct itimerval none = {0};
    setitimer(ITIMER_REAL, &none, NULL);
}

/* -1 and an error's number, or how many of the bytes were moved. */
static void check_reads(void) {
    int ends[2];
    check(pipe(ends) == 0 && write(ends[1], "abc", 3) == 3, "a pipe");
    check(read(ends[0], large, 0) == 0, "a read into no room");
    memset(large, 7, SMALL);
    check(read(ends[0], large, SMALL) == 3 && memcmp(large, "abc\7\7", 5) == 0, "a short read writes no more");
    set_alarm();
    check(read(ends[0], large, SMALL) == -1 && rattle_errno() == EINTR, "an interrupted read");
    clear_alarm();
    close(ends[1]);
    check(read(ends[0], large, SMALL) == 0, "the end of an input");
    close(ends[0]);
    check(read(ends[0], large, SMALL) == -1 && rattle_errno() == EBADF, "a read of a closed descriptor");
    int folder = open(".", O_RDONLY);
    check(read(folder, large, SMALL) == -1 && rattle_errno() == EISDIR, "a read of a folder");
    close(folder);
}

static void check_writes(const char *full) {
    int ends[2], device = open(full, O_WRONLY);
    check(write(device, "a", 1) == -1 && rattle_errno() == ENOSPC, "a write to a full disk");
    close(device);
    check(write(device, "a", 1) == -1 && rattle_errno() == EBADF, "a write to a closed descriptor");
    check(pipe(ends) == 0 && fcntl(ends[1], F_SETFL, O_NONBLOCK) == 0, "a pipe");
    check(write(ends[1], "a", 0) == 0, "a write of nothing");
    ssize_t some = write(ends[1], large, LARGE);
    check(0 < some && some < LARGE, "a short write");
    check(fcntl(ends[1], F_SETFL, 0) == 0, "a pipe that waits");
    set_alarm();
    check(write(ends[1], "a", 1) == -1 && rattle_errno() == EINTR, "an interrupted write");
    clear_alarm();
    close(ends[0]);
    signal(SIGPIPE, SIG_IGN);
    check(write(ends[1], "a", 1) == -1 && rattle_errno() == EPIPE, "a write that nobody reads");
    close(ends[1]);
}

static void check_errors(void) {
    rattle_set_errno(0);
    check(rattle_errno() == 0, "no error");
    rattle_set_errno(EINTR);
    check(rattle_errno() == EINTR && errno == EINTR, "the error that was set");
}

/* Room of this size at an aligned place, which keeps what is stored, or none. */
static void check_memory(void) {
    for (size_t align = 1; align <= MOST_ALIGNED; align *= 2) {
        struct tried one = rattle_alloc(align, align), two = rattle_alloc(align, align);
        check(one.ok == 1 && two.ok == 1 && one.at != two.at, "two blocks are apart");
        check((uintptr_t)one.at % align == 0 && (uintptr_t)two.at % align == 0, "a block is aligned");
        memset(one.at, 1, align);
        memset(two.at, 2, align);
        check(one.at[align - 1] == 1, "a block keeps its bytes");
        rattle_dealloc(one.at);
        rattle_dealloc(two.at);
    }
    struct tried empty = rattle_alloc(0, SMALL);
    check(empty.ok == 1 && (uintptr_t)empty.at % SMALL == 0, "a block of no bytes");
    rattle_dealloc(empty.at);
    check(rattle_alloc(SIZE_MAX / 2, SMALL).ok == 0, "more memory than there is");
}

static void check_growth(void) {
    struct tried block = rattle_alloc(SMALL, 1);
    memcpy(block.at, "abcdefgh", SMALL);
    check(rattle_realloc(block.at, SMALL, SIZE_MAX / 2, 1).ok == 0, "a block that can't grow");
    check(memcmp(block.at, "abcdefgh", SMALL) == 0, "it is as it was");
    struct tried grown = rattle_realloc(block.at, SMALL, LARGE, 1);
    check(grown.ok == 1 && memcmp(grown.at, "abcdefgh", SMALL) == 0, "a block that grows keeps its bytes");
    struct tried less = rattle_realloc(grown.at, 3, 3, 1);
    check(less.ok == 1 && memcmp(less.at, "abc", 3) == 0, "a block that shrinks keeps its first bytes");
    rattle_dealloc(less.at);
}

/* A text at the start of a place and its length, -1 for none, or -2 and a full place. */
static void check_words(const char *full) {
    const size_t len = strlen(full);
    memset(large, 7, LARGE);
    check(rattle_arg(1, large, LARGE) == (intptr_t)len && memcmp(large, full, len) == 0, "an argument");
    check(large[len + 1] == 7, "no more than it is written");
    check(rattle_arg(1, large, len) == (intptr_t)len, "an argument that just fits");
    check(rattle_arg(1, large, len - 1) == -2 && memcmp(large, full, len - 1) == 0, "one that does not fit");
    check(rattle_arg(2, large, LARGE) == -1 && rattle_arg(SIZE_MAX, large, LARGE) == -1, "no argument");
}

static void check_environment(void) {
    static char name[PATH] = "ASSUMED";
    setenv(name, "value", 1);
    check(rattle_env(name, large, LARGE) == 5 && memcmp(large, "value", 5) == 0, "a variable");
    check(rattle_env(name, large, 4) == -2 && memcmp(large, "valu", 4) == 0, "one that does not fit");
    unsetenv(name);
    check(rattle_env(name, large, LARGE) == -1, "no variable");
    clearenv();
    check(rattle_env_at(0, large, LARGE) == -1, "no entry");
    setenv(name, "value", 1);
    check(rattle_env_at(0, large, LARGE) == 13 && memcmp(large, "ASSUMED=value", 13) == 0, "an entry");
}

int main(int count, char **words) {
    if (count != 2) return 2;
    check_errors();
    check_memory();
    check_growth();
    check_words(words[1]);
    check_environment();
    check_reads();
    check_writes(words[1]);
    printf("%d passed\n", passed);
    return 0;
}
