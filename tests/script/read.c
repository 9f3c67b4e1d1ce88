/* Reads inputs by board_script.
 *
 *   read batch          inputs on standard input, each as two 32-bit words, readers and length, and its bytes
 *   read time FILE N    the time of a reading of FILE, the least of N, and of a replay of it
 *
 * For each input of a batch it also checks calls with less room, what is behind that room, calls with memory refused,
 * and that all memory is freed; then it prints what was read. Linked with -Wl,--wrap=malloc,--wrap=realloc,--wrap=free.
 */
#define _POSIX_C_SOURCE 200809L
#include "board.h"

#include <stdio.h>
#include <stdlib.h>
#include <string.h>
#include <time.h>

enum { ITEMS = 2200000, INPUT = 5000000, OUT = 1 << 28, GUARD = 3 };

void *__real_malloc(size_t size);
void *__real_realloc(void *at, size_t size);
void __real_free(void *at);

/* How many requests for memory succeed before all fail (-1: all succeed), how many were made, and the blocks in use. */
static long granted = -1, asked, blocks;

static int is_refused(void) {
    asked++;
    if (granted > 0) granted--;
    else if (granted == 0) return 1;
    return 0;
}

void *__wrap_malloc(size_t size) {
    if (is_refused()) return NULL;
    blocks++;
    return __real_malloc(size);
}

void *__wrap_realloc(void *at, size_t size) {
    if (is_refused()) return NULL;
    blocks += at == NULL;
    return __real_realloc(at, size);
}

void __wrap_free(void *at) {
    blocks -= at != NULL;
    __real_free(at);
}

/* What a call returned and wrote. */
struct result {
    uint8_t answer;
    uint32_t record;
    size_t members, items;
};

static struct board_entry members[BOARD_MEMBERS], some_members[BOARD_MEMBERS + GUARD];
static struct board_item *items, *some_items;
static uint8_t *input;

static void fail(const char *what) {
    printf("WRONG %s\n", what);
    exit(1);
}

/* Entries and items have padding, so they are compared by their parts. */
static int same_entry(const struct board_entry *a, const struct board_entry *b) {
    return !memcmp(a->code, b->code, sizeof a->code) && a->votes == b->votes;
}

static int same_item(const struct board_item *a, const struct board_item *b) {
    return a->command.kind == b->command.kind && !memcmp(a->command.code, b->command.code, sizeof a->command.code) &&
           a->command.chair == b->command.chair && a->command.votes == b->command.votes && a->number == b->number &&
           a->reader == b->reader && a->majority == b->majority && a->from == b->from && a->to == b->to;
}

static size_t least(size_t a, size_t b) { return a < b ? a : b; }

static struct result read_into(uint32_t readers, size_t len, struct board_entry *ms, size_t ms_len,
                               struct board_item *is, size_t is_len) {
    struct result it = {99, 99, 99, 99};
    it.answer = board_script(input, len, readers, ms, ms_len, &it.members, is, is_len, &it.items, &it.record);
    return it;
}

/* The same call with room for fewer, and with what it leaves of a pattern. */
static void check_room(uint32_t readers, size_t len, size_t ms, size_t is, struct result whole) {
    struct board_entry entry;
    struct board_item item;
    memset(&entry, 0xA5, sizeof entry);
    memset(&item, 0xA5, sizeof item);
    for (size_t i = 0; i < ms + GUARD; i++) some_members[i] = entry;
    for (size_t i = 0; i < is + GUARD; i++) some_items[i] = item;
    struct result it = read_into(readers, len, ms ? some_members : NULL, ms, is ? some_items : NULL, is);
    if (it.answer != whole.answer || it.record != whole.record) fail("result with less room");
    if (it.members != whole.members || it.items != whole.items) fail("counts with less room");
    size_t ms_written = least(it.members, ms), is_written = least(it.items, is);
    for (size_t i = 0; i < ms + GUARD; i++)
        if (!same_entry(&some_members[i], i < ms_written ? &members[i] : &entry)) fail("members with less room");
    for (size_t i = 0; i < is + GUARD; i++)
        if (!same_item(&some_items[i], i < is_written ? &items[i] : &item)) fail("items with less room");
}

/* The same call with all memory refused after each number of requests that succeed. */
static void check_refusals(uint32_t readers, size_t len, long needed, struct result whole) {
    for (long at = 0; at < needed; at++) {
        granted = at;
        struct result it = read_into(readers, len, some_members, BOARD_MEMBERS, some_items, whole.items);
        granted = -1;
        if (it.answer != BOARD_OUT_OF_MEMORY || it.record != 0) fail("result with memory refused");
        if (it.members > whole.members || it.items > whole.items) fail("counts with memory refused");
        for (size_t i = 0; i < it.members; i++)
            if (!same_entry(&some_members[i], &members[i])) fail("members with memory refused");
        for (size_t i = 0; i < it.items; i++)
            if (!same_item(&some_items[i], &items[i])) fail("items with memory refused");
        if (blocks) fail("memory kept after a refusal");
    }
}

static void print_result(struct result it, long needed) {
    printf("%u %u %zu %zu %ld\n", it.answer, it.record, it.members, it.items, needed);
    for (size_t i = 0; i < it.members; i++) {
        if (members[i].code[3]) fail("the end of a member's code");
        printf("%.3s,%llu\n", (const char *)members[i].code, (unsigned long long)members[i].votes);
    }
    for (size_t i = 0; i < it.items; i++) {
        const struct board_item *item = &items[i];
        const struct board_command *command = &item->command;
        if (command->code[3]) fail("the end of a code");
        printf("%u,%u,%.4s,%llu,%llu,%u,%u,%u,%u\n", item->number, command->kind, (const char *)command->code,
               (unsigned long long)command->chair, (unsigned long long)command->votes, item->reader, item->majority,
               item->from, item->to);
    }
}

static void batch(void) {
    uint32_t head[2];
    long count = 0;
    while (fread(head, sizeof head, 1, stdin) == 1) {
        uint32_t readers = head[0];
        size_t len = head[1];
        if (len > INPUT || fread(input, 1, len, stdin) != len) fail("the batch");
        asked = 0;
        struct result whole = read_into(readers, len, members, BOARD_MEMBERS, items, ITEMS);
        long needed = asked;
        if (blocks) fail("memory kept");
        check_room(readers, len, 0, 0, whole);
        check_room(readers, len, count % 5, count % 7, whole);
        check_room(readers, len, whole.members, whole.items, whole);
        check_room(readers, len, BOARD_MEMBERS, whole.items + GUARD, whole);
        if (count % 10 == 0) check_refusals(readers, len, needed, whole);
        print_result(whole, needed);
        count++;
    }
    printf("end %ld\n", count);
}

static double now(void) {
    struct timespec at;
    clock_gettime(CLOCK_MONOTONIC, &at);
    return at.tv_sec * 1e9 + at.tv_nsec;
}

static void measure(const char *name, int times) {
    FILE *file = fopen(name, "rb");
    size_t len = file ? fread(input, 1, INPUT, file) : 0;
    uint8_t *out = malloc(OUT);
    if (!out) fail("room for a replay");
    double reading = 1e18, replay = 1e18;
    struct result it = {0, 0, 0, 0};
    uint64_t written = 0;
    uint32_t record = 0;
    for (int i = 0; i < times; i++) {
        double began = now();
        it = read_into(4, len, members, BOARD_MEMBERS, items, ITEMS);
        double read = now();
        board_replay(input, len, 4, 1000000, out, OUT, &written, &record);
        double ended = now();
        if (read - began < reading) reading = read - began;
        if (ended - read < replay) replay = ended - read;
    }
    size_t records = it.members + it.items + 2;
    printf("%zu bytes, %zu members, %zu items, result %u at %u: %.0f us, %.1f ns a record, %.2f ns a byte; "
           "replay %.0f us, %.1f ns a record, %.2f of it\n",
           len, it.members, it.items, it.answer, it.record, reading / 1e3, reading / records, reading / len,
           replay / 1e3, replay / records, reading / replay);
}

int main(int argc, char **argv) {
    static char in[65536], out[65536]; /* so that the C library allocates none, and all blocks are those of the calls */
    items = calloc(ITEMS + GUARD, sizeof *items);
    some_items = calloc(ITEMS + GUARD, sizeof *items);
    input = calloc(INPUT, 1);
    if (!items || !some_items || !input) return 2;
    setvbuf(stdin, in, _IOFBF, sizeof in);
    setvbuf(stdout, out, _IOFBF, sizeof out);
    blocks = 0;
    if (argc == 2 && !strcmp(argv[1], "batch")) batch();
    else if (argc == 4 && !strcmp(argv[1], "time")) measure(argv[2], atoi(argv[3]));
    else return 2;
    return 0;
}
