/* What bench/run-languages times, from C:
 *
 *     tasks BOARDS SCRIPT COMMANDS
 *
 * `boards` counts each board of BOARDS, 24 words of 64 bits each, at all four majorities by a call of its own.
 * `commands` starts the register of SCRIPT, sets votes by the lines `CODE VOTES` of COMMANDS, and counts after each.
 * Prints for both a name, the processor's nanoseconds of the best of three rounds, and the sum of all winning
 * coalitions. */
#include "board.h"
#include <inttypes.h>
#include <stdio.h>
#include <stdlib.h>
#include <time.h>

enum { CHAIRS = 24, ROUNDS = 3, MOST = 1 << 16 };

static struct board_room room;
static struct board_entry members[BOARD_MEMBERS];
static struct board_item items[MOST];
static struct board_command commands[MOST];
static uint8_t script[BOARD_INPUT_BYTES];
static uint64_t weights[MOST][CHAIRS];

static uint64_t now(void) {
    struct timespec at;
    clock_gettime(CLOCK_PROCESS_CPUTIME_ID, &at);
    return (uint64_t)at.tv_sec * 1000000000u + (uint64_t)at.tv_nsec;
}

static void need(int holds) {
    if (!holds) exit(1);
}

/* Reads a file of items, and returns how many there are. */
static size_t read_file(const char *name, void *to, size_t size, size_t most) {
    FILE *file = fopen(name, "rb");
    need(file != NULL);
    size_t many = fread(to, size, most, file);
    fclose(file);
    return many;
}

static size_t read_commands(const char *name) {
    FILE *file = fopen(name, "r");
    need(file != NULL);
    size_t many = 0;
    for (uint64_t votes; many < MOST && fscanf(file, "%3s %" SCNu64, commands[many].code, &votes) == 2; many++) {
        commands[many].kind = BOARD_VOTES;
        commands[many].votes = votes;
    }
    fclose(file);
    return many;
}

static uint64_t count_boards(size_t many) {
    uint64_t sum = 0;
    for (size_t board = 0; board < many; board++) {
        struct board_all_counts all;
        uint64_t words[BOARD_SHEET_WORDS] = {0};
        for (size_t at = 0; at < CHAIRS; at++) {
            words[at] = weights[board][at] + 1;
            words[BOARD_CHAIRS] += weights[board][at];
        }
        need(!board_all_counts_of_sheet(words, BOARD_SHEET_WORDS, &room, &all));
        sum += all.half.omega + all.seventy.omega + all.eighty_five.omega + all.quorum.omega;
    }
    return sum;
}

static void start(size_t len, struct board_register *handle) {
    size_t many, count;
    uint32_t record, accepted;
    need(!board_script(script, len, 1, members, BOARD_MEMBERS, &many, items, MOST, &count, &record) && count <= MOST);
    need(!board_register_start(members, many, BOARD_COMMANDS, handle));
    for (size_t at = 0; at < count; at++) need(!board_register_apply(handle, &items[at].command, &accepted));
}

static uint64_t carry_out(struct board_register *handle, size_t many) {
    uint64_t sum = 0;
    for (size_t at = 0; at < many; at++) {
        struct board_counts counts;
        uint32_t accepted;
        need(!board_register_apply(handle, &commands[at], &accepted));
        need(!board_register_counts(handle, BOARD_HALF, &room, &counts));
        sum += counts.omega;
    }
    return sum;
}

int main(int count, char **words) {
    need(count == 4);
    const size_t boards = read_file(words[1], weights, sizeof *weights, MOST);
    const size_t len = read_file(words[2], script, 1, sizeof script), many = read_commands(words[3]);
    uint64_t least[2] = {UINT64_MAX, UINT64_MAX}, sums[2] = {0, 0};
    for (int round = 0; round < 2 * ROUNDS; round++) {
        struct board_register handle = {0};
        start(len, &handle);
        const uint64_t begun = now();
        sums[round % 2] = round % 2 ? carry_out(&handle, many) : count_boards(boards);
        const uint64_t took = now() - begun;
        if (took < least[round % 2]) least[round % 2] = took;
        board_register_free(&handle);
    }
    printf("boards %" PRIu64 " %" PRIu64 "\ncommands %" PRIu64 " %" PRIu64 "\n", least[0], sums[0], least[1], sums[1]);
    return 0;
}
