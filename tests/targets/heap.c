/* Tests the heap of the WebAssembly module on this machine: heap SEED STEPS. Random calls are compared with a model:
 * where memory lies, what it contains, which blocks are free, and when memory is refused. */
#include <setjmp.h>
#include <stdint.h>
#include <stdio.h>
#include <stdlib.h>
#include <string.h>

/* The memory of an instance: whole pages from a page's address on. Its size counts from address 0. */
enum { PAGES_AT_FIRST = 2, MOST_PAGES = 64, BASE = 1000 };
static unsigned char *heap_base;
static uintptr_t pages_before, pages;
static jmp_buf trapped;

static uintptr_t memory_grow(uintptr_t more) {
    if (more > MOST_PAGES - pages) return (uintptr_t)-1;
    pages += more;
    return pages_before + pages - more;
}

#define __heap_base (*heap_base)
#define __builtin_wasm_memory_size(memory) (pages_before + pages)
#define __builtin_wasm_memory_grow(memory, more) memory_grow(more)
#define __builtin_trap() longjmp(trapped, 1)
#include "../../portable/wasm/heap.c"

enum { HELD = 64 };
struct held {
    unsigned char *at; /* null if nothing is held here */
    size bytes;
    unsigned char first;
};
static struct held held[HELD];
static size start, refusals, kept_in_place, moves;

static void must(int is_so, const char *what) {
    if (is_so) return;
    fprintf(stderr, "heap: %s\n", what);
    exit(1);
}

static uint64_t state;

static uint64_t some(uint64_t below) {
    state = state * 6364136223846793005u + 1442695040888963407u;
    return (state >> 33) % below;
}

static size some_bytes(void) {
    switch (some(8)) {
    case 0: return some(3);
    case 1: return some(2000000);
    case 2: return some(100000);
    default: return some(400);
    }
}

static void fill(struct held *it) {
    it->first = (unsigned char)some(256);
    for (size at = 0; at < it->bytes; at++) it->at[at] = (unsigned char)(it->first + at % 251);
}

static void check_contents(const struct held *it, size bytes) {
    for (size at = 0; at < bytes; at++) must(it->at[at] == (unsigned char)(it->first + at % 251), "contents changed");
}

/* How many blocks the bins have. Each is free, in its bin, and found from the one before it. */
static size in_bins(void) {
    size found = 0;
    for (struct block **bin = bins; bin < bins + sizeof bins / sizeof *bins; bin++) {
        struct block **link = bin;
        for (struct block *it = *bin; it; it = it->next, found++) {
            must(is_free(it) && bin_of(length_of(it)) == bin, "a block is in a wrong bin");
            must(it->link == link, "a link is wrong");
            link = &it->next;
        }
    }
    return found;
}

/* Blocks cover all memory once, no two free ones are neighbours, bins have the free ones, and the others are held. */
static void check_blocks(void) {
    size in_use = 0, are_free = 0, are_held = 0, length = 0;
    int was_free = 0;
    const struct block *it = (struct block *)start;
    for (; it < end; it = after(it)) {
        must(it->before == length, "the length of the block before is wrong");
        length = length_of(it);
        must(length >= LEAST && length <= (size)end - (size)it, "a length is wrong");
        must(!(is_free(it) && was_free), "two free blocks are neighbours");
        was_free = is_free(it);
        *(was_free ? &are_free : &in_use) += 1;
    }
    must(it == end && end->before == length && end->tag == IN_USE, "the end is wrong");
    must((size)end + HEADER == (pages_before + pages) * PAGE, "memory is not used to its end");
    must(in_bins() == are_free, "free blocks are in no bin");
    for (size at = 0; at < HELD; at++) are_held += held[at].at != 0;
    must(in_use == are_held, "blocks in use are not those held");
}

/* The longest free block, with the memory that may still be added at the end. */
static size longest(void) {
    size found = 0, more = (pages_before + MOST_PAGES) * PAGE - HEADER - (size)end;
    for (const struct block *it = (struct block *)start; it < end; it = after(it)) {
        size length = is_free(it) ? length_of(it) + (after(it) == end ? more : 0) : 0;
        if (length > found) found = length;
    }
    return found > more ? found : more;
}

/* All memory is one free block. */
static int is_joined(void) { return is_free((struct block *)start) && after((struct block *)start) == end; }

static void check_held(const struct held *it) {
    size length = length_of(block_of(it->at));
    must((size)it->at % ALIGNMENT == 0, "memory is not aligned");
    must(start < (size)it->at && (size)it->at + it->bytes <= (size)end, "memory is outside");
    must(HEADER + it->bytes <= length, "a block is shorter than its memory");
    must(length < length_for(it->bytes, 1) + LEAST, "a block is longer than it need be");
    for (const struct held *other = held; other < held + HELD; other++)
        must(other == it || !other->at || other->at + other->bytes <= it->at || it->at + it->bytes <= other->at,
             "memories overlap");
}

/* By the call of std, or by that of a host. */
static void *taken(size bytes) {
    if (some(2)) return (void *)board_reserve(bytes);
    struct answer given = rattle_alloc(bytes, (size)1 << some(5));
    must(given.given <= 1 && given.memory, "an answer is wrong");
    must(given.given || given.memory == &nothing, "a refused answer is wrong");
    return given.given ? given.memory : 0;
}

static void hold(struct held *it) {
    size bytes = some_bytes(), fits = longest() >= length_for(bytes, 1);
    it->at = taken(bytes);
    it->bytes = bytes;
    must(fits == (it->at != 0), "memory is refused that is there, or given that is not");
    refusals += !it->at;
    if (it->at) check_held(it);
    if (it->at) fill(it);
}

static void resize(struct held *it) {
    size bytes = some(3) ? some_bytes() : it->bytes + some(64), kept = bytes < it->bytes ? bytes : it->bytes;
    struct answer given = rattle_realloc(it->at, kept, bytes, ALIGNMENT);
    if (!given.given) {
        must(bytes > it->bytes, "less memory is refused");
        must(longest() < length_for(bytes, 1), "memory is refused that is there");
        refusals++;
        check_held(it);
        check_contents(it, it->bytes);
        return;
    }
    *(given.memory == it->at ? &kept_in_place : &moves) += 1;
    must(given.memory == it->at || bytes > it->bytes, "memory moves to become smaller");
    it->at = given.memory;
    it->bytes = bytes;
    check_held(it);
    check_contents(it, kept);
    fill(it);
}

static void let_go(struct held *it) {
    check_contents(it, it->bytes);
    if (some(2)) rattle_dealloc(it->at);
    else board_release((size)it->at);
    it->at = 0;
}

static void step(void) {
    struct held *it = &held[some(HELD)];
    if (!it->at) hold(it);
    else if (some(2)) resize(it);
    else let_go(it);
}

/* What is never given: larger alignments, and more bytes than any memory has. */
static void refused(void) {
    struct held *it = &held[some(HELD)];
    static const size large[] = {((size)1 << 48) + 1, (size)1 << 63, (size)-1, (size)-17};
    must(!rattle_alloc(1, 32).given, "an alignment of 32 is given");
    for (size at = 0; at < sizeof large / sizeof *large; at++) {
        must(!board_reserve(large[at]) && !rattle_alloc(large[at], 1).given, "too many bytes are given");
        if (it->at) must(!rattle_realloc(it->at, it->bytes, large[at], 1).given, "too many bytes are given again");
    }
    if (it->at) must(!rattle_realloc(it->at, it->bytes, it->bytes, 32).given, "an alignment of 32 is given again");
    if (it->at) check_held(it);
    if (it->at) check_contents(it, it->bytes);
    board_release(0);
}

/* Memory without bytes has its own address, and memory that is given back twice ends in a trap. */
static void traps(void) {
    size at = board_reserve(0), other = board_reserve(0);
    must(at && other && at != other, "memory without bytes is not its own");
    must(length_of(block_of((void *)at)) > HEADER, "memory without bytes has no byte");
    board_release(at);
    board_release(other);
    for (int twice = 0; twice < 2; twice++) {
        if (setjmp(trapped)) continue;
        board_release(twice ? at : other);
        must(0, "memory is given back twice");
    }
    if (!setjmp(trapped)) {
        rattle_realloc((void *)at, 0, 1, 1);
        must(0, "memory that was given back is resized");
    }
}

/* A block between two others is lengthened into the free one after it, and moved only if that is too short. The last
 * block is lengthened with the memory. */
static void lengthens_in_place(void) {
    size one = board_reserve(100), two = board_reserve(100), three = board_reserve(100);
    board_release(two);
    must(rattle_realloc((void *)one, 100, 200, 1).memory == (void *)one, "a block moves though the next is free");
    struct answer moved = rattle_realloc((void *)one, 200, 300, 1);
    must(moved.given && moved.memory != (void *)one, "a block is lengthened over another");
    board_release((size)moved.memory);
    board_release(three);
    size whole = (size)end - start - HEADER, all = board_reserve(whole);
    must(all && pages == PAGES_AT_FIRST && !in_bins(), "memory grows though there is just enough");
    must(rattle_realloc((void *)all, 100, whole + 1, 1).memory == (void *)all, "the last block moves");
    must(pages == PAGES_AT_FIRST + 1, "memory does not grow by a page");
    all = (size)rattle_realloc((void *)all, 100, whole + PAGE, 1).memory;
    must(!in_bins() && board_reserve(PAGE), "memory does not grow by a page and a header");
    board_release(all + whole + PAGE + HEADER);
    board_release(all);
    must(is_joined(), "blocks are not joined");
}

int main(int argc, char **argv) {
    unsigned char *memory = aligned_alloc(PAGE, (size)MOST_PAGES * PAGE);
    must(argc == 3 && memory, "heap SEED STEPS");
    state = strtoull(argv[1], 0, 10);
    heap_base = memory + BASE;
    start = aligned((size)heap_base);
    pages_before = (uintptr_t)memory / PAGE;
    pages = PAGES_AT_FIRST;
    traps();
    lengthens_in_place();
    for (size left = strtoull(argv[2], 0, 10); left > 0; left--) {
        step();
        check_blocks();
        if (left % 64 == 0) refused();
    }
    for (struct held *it = held; it < held + HELD; it++)
        if (it->at) let_go(it);
    must(is_joined(), "blocks are left");
    must(refusals && kept_in_place && moves, "a way of the heap was never tried");
    printf("%zu refusals, %zu in place, %zu moved\n", refusals, kept_in_place, moves);
    free(memory);
    return 0;
}
