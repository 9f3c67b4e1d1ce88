/* Tests the heap of board.c: what is given and refused, and that contents are kept. */
#include <stdint.h>
#include <stdio.h>

#include "../../portable/src/heap.c"

static int must(int is_so, const char *what) {
    if (!is_so) fprintf(stderr, "other_heap: %s\n", what);
    return !is_so;
}

int main(void) {
    static const size large = (size)-1 / 2;
    unsigned char *block = rattle_alloc(0, 16).block;
    int failed = must((uintptr_t)block % 16 == 0, "a block is not aligned");
    block = rattle_realloc(block, 0, 1000, 16).block;
    for (int at = 0; at < 1000; at++) block[at] = (unsigned char)at;
    struct answer refused[] = {rattle_alloc(1, 32), rattle_alloc(large, 1), rattle_realloc(block, 1000, 2000, 32),
                               rattle_realloc(block, 1000, large, 1)};
    for (size at = 0; at < sizeof refused / sizeof *refused; at++) {
        failed |= must(!refused[at].given && refused[at].block == &nothing, "a block is given that must be refused");
    }
    struct answer longer = rattle_realloc(block, 1000, 100000, 1);
    struct answer shorter = rattle_realloc(longer.block, 1000, 1000, 1);
    failed |= must(longer.given && shorter.given, "a block is refused");
    block = shorter.block;
    for (int at = 0; at < 1000; at++) failed |= must(block[at] == (unsigned char)at, "contents changed");
    rattle_dealloc(block);
    return failed;
}
