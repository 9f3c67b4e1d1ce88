/* Reads boards from standard input, in words of 64 bits, counts each by every call of board.h, and writes the answer
 * of each call and the counts after it. A board is the number of its weights, the weights, the total, the
 * number of its members, the votes of each, its chair and whether it is suspended, and the mask of open chairs. */
#include <stdio.h>
#include <stdlib.h>
#include <string.h>

#include "board.h"

/* One majority more than exist. */
enum { MOST_WEIGHTS = 64, MOST_MEMBERS = 256, MAJORITIES = 5, UNTOUCHED = 0xAA };

static struct board_room room;

/* Reads `many` words, and ends the program if there are no more. */
static void read_words(void *to, size_t many) {
    if (fread(to, sizeof(uint64_t), many, stdin) != many) exit(0);
}

static void write_answer(uint8_t answer, const void *counts, size_t size) {
    putchar(answer);
    fwrite(counts, size, 1, stdout);
}

/* By the calls for weights, and for the words of a sheet, which must agree. */
static void count_weights(const uint64_t *weights, size_t len, uint64_t total) {
    struct board_counts counts, same;
    struct board_all_counts all;
    uint64_t words[MOST_WEIGHTS + 2] = {0};
    size_t chairs = len < BOARD_CHAIRS ? BOARD_CHAIRS : len;
    for (size_t at = 0; at < len; at++) words[at] = weights[at] + 1;
    words[chairs] = total;
    for (uint32_t majority = 0; majority < MAJORITIES; majority++) {
        memset(&counts, UNTOUCHED, sizeof counts);
        memset(&same, UNTOUCHED, sizeof same);
        uint8_t answer = board_counts_of_weights(weights, len, total, majority, &room, &counts);
        write_answer(answer, &counts, sizeof counts);
        if (board_counts_of_sheet(words, chairs + 2, majority, &room, &same) != answer) exit(1);
        if (memcmp(&counts, &same, sizeof same) != 0) exit(1);
    }
    memset(&all, UNTOUCHED, sizeof all);
    uint8_t answer = board_all_counts_of_sheet(words, chairs + 2, &room, &all);
    write_answer(answer, &all, sizeof all);
}

static void count_members(const struct board_member *members, size_t len, uint32_t open_chairs) {
    struct board_counts counts;
    for (uint32_t majority = 0; majority < MAJORITIES; majority++) {
        memset(&counts, UNTOUCHED, sizeof counts);
        uint8_t answer = board_counts_of_members(members, len, open_chairs, majority, &room, &counts);
        write_answer(answer, &counts, sizeof counts);
    }
}

int main(void) {
    static uint64_t weights[MOST_WEIGHTS];
    static struct board_member members[MOST_MEMBERS];
    uint64_t len, total, open_chairs;
    for (;;) {
        read_words(&len, 1);
        read_words(weights, len);
        read_words(&total, 1);
        count_weights(weights, len, total);
        read_words(&len, 1);
        read_words(members, 3 * len);
        read_words(&open_chairs, 1);
        count_members(members, len, (uint32_t)open_chairs);
    }
}
