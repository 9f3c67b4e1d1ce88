/* Registers on threads: threads at once, each with its own register; and one register that goes from thread to thread,
 * and from place to place.
 *
 *     threads SEED MANY < SCRIPT
 *
 * Each thread has the stack that board.h asks for, times STACK_TIMES, or the least that the system has, if that is
 * more. */
#define _POSIX_C_SOURCE 200809L
#include <pthread.h>
#include <unistd.h>

#include "draws.h"

#ifndef STACK_TIMES
#define STACK_TIMES 1
#endif

enum { THREADS = 2, TURNS = 12, KILOBYTE = 1024, STACK = 96, SCRIPT_STACK = 256 };

/* A register with its model and its random commands, and memory for its counts. */
struct work {
    struct board_register handle;
    struct model model;
    struct draw draw;
    struct board_room room;
    uint32_t many;
};

static void start(struct work *work, uint64_t seed, uint32_t many) {
    static struct board_entry entries[BOARD_MEMBERS];
    work->draw = draw_of(seed, many);
    work->many = many;
    draw_entries(&work->draw, entries);
    uint32_t journal = work->draw.journal;
    if (board_register_start(entries, work->draw.entries, journal, &work->handle)) stop("no start", seed);
    start_model(&work->model, entries, work->draw.entries, journal);
}

/* Reads, and compares with the counts of the words that were published. */
static void publish_and_read(struct work *work) {
    struct board_counts counts, wanted;
    uint32_t published;
    if (board_register_publish(&work->handle, &published) != BOARD_DONE) stop("no publication", 0);
    publish_model(&work->model);
    if (board_register_read(&work->handle, BOARD_HALF, &work->room, &counts) != BOARD_DONE) stop("no reading", 0);
    const uint64_t *words = work->model.published_words;
    if (board_counts_of_sheet(words, BOARD_SHEET_WORDS, BOARD_HALF, &work->room, &wanted)) stop("no counts", 0);
    if (memcmp(&counts, &wanted, sizeof counts) != 0) stop("another reading", 0);
}

static void *carry_out(void *given) {
    struct work *work = given;
    struct board_register copy = {0};
    for (uint32_t at = 0; at < work->many; at++) {
        struct board_command command = draw_command(&work->draw);
        uint32_t accepted;
        uint8_t wanted = answer_of(&work->model, &command);
        if (board_register_apply(&work->handle, &command, &accepted) != wanted) stop("another answer", at);
        if (wanted == BOARD_DONE) obey(&work->model, &command);
        if (at % 100 == 0) compare(&work->handle, &work->model, at);
    }
    publish_and_read(work);
    if (board_register_copy(&work->handle, UINT32_MAX, &copy) != BOARD_DONE) stop("no copy", work->many);
    compare(&copy, &work->model, work->many);
    board_register_free(&copy);
    compare_history(&work->handle, &work->model, 0, work->many);
    return NULL;
}

static void end(struct work *work) {
    board_register_free(&work->handle);
    end_model(&work->model);
}

/* Runs a function on threads at once, each with its own work, which are next to one another. */
static void run(void *(*function)(void *), void *works, size_t size, int many, size_t stack) {
    pthread_t threads[THREADS];
    pthread_attr_t attributes;
    size_t bytes = stack * STACK_TIMES * KILOBYTE, least = (size_t)sysconf(_SC_THREAD_STACK_MIN);
    if (pthread_attr_init(&attributes)) stop("no attributes", stack);
    if (pthread_attr_setstacksize(&attributes, bytes < least ? least : bytes)) stop("no stack", stack);
    for (int at = 0; at < many; at++) {
        void *work = (char *)works + (size_t)at * size;
        if (pthread_create(&threads[at], &attributes, function, work)) stop("no thread", 0);
    }
    for (int at = 0; at < many; at++) pthread_join(threads[at], NULL);
    pthread_attr_destroy(&attributes);
}

/* A script, read at once by threads that each have their own lists. */
struct script {
    const uint8_t *input;
    size_t len, members, items;
    struct board_entry entries[BOARD_MEMBERS];
    uint64_t length;
};

static void *read_script(void *given) {
    struct script *script = given;
    uint32_t record;
    if (board_script(script->input, script->len, 1, script->entries, BOARD_MEMBERS, &script->members, NULL, 0,
                     &script->items, &record) != BOARD_DONE)
        stop("no script", record);
    if (board_replay_length(script->input, script->len, 1, BOARD_COMMANDS, &script->length, &record) != BOARD_DONE)
        stop("no length", record);
    return NULL;
}

int main(int many, char **words) {
    static struct work works[THREADS], moved[2];
    static struct script scripts[THREADS];
    static uint8_t input[1 << 20];
    if (many != 3) return 2;
    uint64_t seed = strtoull(words[1], NULL, 10);
    uint32_t commands = (uint32_t)strtoul(words[2], NULL, 10);
    for (int at = 0; at < THREADS; at++) start(&works[at], seed + (uint64_t)at, commands);
    run(carry_out, works, sizeof *works, THREADS, STACK);
    for (int at = 0; at < THREADS; at++) end(&works[at]);

    start(&moved[0], seed, commands / TURNS);
    for (int turn = 0; turn < TURNS; turn++) {
        run(carry_out, &moved[turn % 2], sizeof *moved, 1, STACK);
        moved[1 - turn % 2] = moved[turn % 2];
        memset(&moved[turn % 2], 0, sizeof *moved);
    }
    end(&moved[TURNS % 2]);

    size_t len = fread(input, 1, sizeof input, stdin);
    for (int at = 0; at < THREADS; at++) scripts[at] = (struct script){.input = input, .len = len};
    run(read_script, scripts, sizeof *scripts, THREADS, SCRIPT_STACK);
    if (scripts[0].length != scripts[1].length || scripts[0].items != scripts[1].items) stop("another script", len);
    printf("%d registers at once, one on %d threads, %zu records read at once\n", THREADS, TURNS, scripts[0].items);
    return 0;
}
