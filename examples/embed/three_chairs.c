/* The three chairs of the first example, by the library. */
#include "board.h"
#include <inttypes.h>
#include <stdio.h>

static struct board_room room;

int main(void) {
    const uint64_t weights[] = {50, 49, 1};
    struct board_counts counts;
    uint8_t refusal = board_counts_of_weights(weights, 3, 100, BOARD_HALF, &room, &counts);
    if (refusal != BOARD_DONE) {
        fprintf(stderr, "refused as number %d\n", refusal);
        return 1;
    }
    printf("%" PRIu64 " votes win, %" PRIu64 " of %" PRIu64 " coalitions\n", counts.quota, counts.omega,
           counts.coalitions);
    for (uint64_t at = 0; at < counts.chairs; at++) {
        const struct board_chair *row = &counts.rows[at];
        printf("chair %" PRIu64 ": weight %" PRIu64 ", swings %" PRIu64 "\n", row->chair, row->weight, row->swings);
    }
    return 0;
}
