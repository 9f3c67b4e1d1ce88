/* A board at all majorities in one call, and two calls that are refused. */
#include "board.h"
#include <inttypes.h>
#include <stdio.h>

static struct board_room room;

static void print(const char *majority, const struct board_counts *counts) {
    printf("%s: quota %" PRIu64 ", %" PRIu64 " of %" PRIu64 " coalitions win, swings", majority, counts->quota,
           counts->omega, counts->coalitions);
    for (uint64_t at = 0; at < counts->chairs; at++) printf(" %" PRIu64, counts->rows[at].swings);
    printf("\n");
}

int main(void) {
    /* For each chair its weight plus 1, and 0 if it is closed; then the total. */
    const uint64_t words[BOARD_SHEET_WORDS] = {51, 50, 2, [BOARD_CHAIRS] = 100};
    const uint64_t weights[] = {50, 49, 1};
    struct board_all_counts all;
    if (board_all_counts_of_sheet(words, BOARD_SHEET_WORDS, &room, &all) != BOARD_DONE) return 1;
    print("half", &all.half);
    print("70", &all.seventy);
    print("85", &all.eighty_five);
    print("quorum", &all.quorum);

    uint8_t below = board_counts_of_weights(weights, 3, 99, BOARD_HALF, &room, &all.half);
    printf("a total below the sum: %d, %s\n", below, board_refusal_name(below));
    uint8_t majority = board_counts_of_weights(weights, 3, 100, 9, &room, &all.half);
    printf("a majority 9: %d, %s\n", majority, board_refusal_name(majority));
    return 0;
}
