/* Counts the boards and replays the scripts of tests/release/answers.py, and prints them with its answers: the bytes of
 * its files, if the library's answers equal the program's.
 *
 *     answers boards < boards.txt
 *     answers scripts < scripts.txt */
#include "board.h"
#include <inttypes.h>
#include <stdio.h>
#include <stdlib.h>
#include <string.h>

enum { LINE = 1 << 23, TEXT = 1 << 21 };

static struct board_room room;
static char line[LINE];
static uint8_t input[LINE / 2], text[TEXT];

/* A fraction as the program prints it, or `-` if it is over 0. */
static void print_fraction(uint64_t swings, uint64_t over) {
    if (over) printf(",%" PRIu64 "/%" PRIu64, swings, over);
    else printf(",-");
}

static void print_counts(const char *majority, const struct board_counts *counts) {
    uint64_t all = 0;
    for (uint64_t at = 0; at < counts->chairs; at++) all += counts->rows[at].swings;
    printf("%s,%" PRIu64 ",%" PRIu64 ",%" PRIu64 ",%" PRIu64, majority, counts->chairs, counts->quota, counts->cast,
           counts->total);
    printf(",%" PRIu64 ",%" PRIu64 "\n", counts->omega, counts->coalitions);
    for (uint64_t at = 0; at < counts->chairs; at++) {
        const struct board_chair *row = &counts->rows[at];
        printf("chair,%" PRIu64 ",%" PRIu64 ",%" PRIu64, row->chair, row->weight, row->swings);
        print_fraction(row->swings, counts->coalitions / 2);
        print_fraction(row->swings, all);
        print_fraction(row->swings, counts->omega);
        print_fraction(row->swings, counts->coalitions - counts->omega);
        printf("\n");
    }
}

/* Counts the board of a line by one call for each majority, and by one call for all, which must answer the same. */
static int count_board(char *rest) {
    static const char *const names[] = {"half", "70", "85", "quorum"};
    struct board_all_counts all;
    uint64_t weights[BOARD_CHAIRS], words[BOARD_SHEET_WORDS] = {0}, total = strtoull(rest, &rest, 10);
    size_t len = 0;
    for (; *rest == ','; len++) {
        weights[len] = strtoull(rest + 1, &rest, 10);
        words[len] = weights[len] + 1;
    }
    words[BOARD_CHAIRS] = total;
    if (board_all_counts_of_sheet(words, BOARD_SHEET_WORDS, &room, &all)) return 1;
    const struct board_counts *of_all[] = {&all.half, &all.seventy, &all.eighty_five, &all.quorum};
    for (uint32_t majority = 0; majority < sizeof of_all / sizeof of_all[0]; majority++) {
        struct board_counts counts;
        if (board_counts_of_weights(weights, len, total, majority, &room, &counts)) return 1;
        if (memcmp(&counts, of_all[majority], sizeof counts)) return 1;
        print_counts(names[majority], &counts);
    }
    return 0;
}

static unsigned digit(char hex) { return (unsigned)(hex <= '9' ? hex - '0' : hex - 'a' + 10); }

/* Replays the script of a line, READERS,JOURNAL,STATUS,INPUT,TEXT, and prints the line with its own status and text. */
static void replay(char *rest) {
    uint32_t readers = (uint32_t)strtoul(rest, &rest, 10), journal = (uint32_t)strtoul(rest + 1, &rest, 10), record;
    const char *hex = strchr(rest + 1, ',') + 1;
    size_t len = strcspn(hex, ",") / 2;
    uint64_t written;
    for (size_t at = 0; at < len; at++) input[at] = (uint8_t)(digit(hex[2 * at]) << 4 | digit(hex[2 * at + 1]));
    uint8_t fault = board_replay(input, len, readers, journal, text, sizeof text, &written, &record);
    printf("%" PRIu32 ",%" PRIu32 ",%d,%.*s,", readers, journal, fault != BOARD_DONE, (int)(2 * len), hex);
    for (uint64_t at = 0; at < written; at++) printf("%02x", text[at]);
    printf("\n");
}

int main(int many, char **words) {
    if (many != 2) return 2;
    int is_boards = strcmp(words[1], "boards") == 0;
    while (fgets(line, sizeof line, stdin)) {
        if (!is_boards) {
            replay(line);
        } else if (strncmp(line, "board,", 6) == 0) {
            fputs(line, stdout);
            if (count_board(line + 6)) return 1;
        }
    }
    return 0;
}
