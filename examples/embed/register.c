/* The register itself: three members in three chairs, and a question that changes a copy alone. */
#include "board.h"
#include <inttypes.h>
#include <stdio.h>
#include <string.h>

static struct board_room room;

/* Carries out a command. */
static uint8_t apply(struct board_register *board, struct board_command command) {
    uint32_t accepted;
    return board_register_apply(board, &command, &accepted);
}

/* Prints the swings of each chair as the register stands. */
static void print(const char *what, struct board_register *board) {
    struct board_counts counts;
    if (board_register_counts(board, BOARD_HALF, &room, &counts) != BOARD_DONE) return;
    printf("%s: %" PRIu32 " commands, swings", what, board_register_accepted(board));
    for (uint64_t at = 0; at < counts.chairs; at++) printf(" %" PRIu64, counts.rows[at].swings);
    printf("\n");
}

/* Starts a register of three members, opens three chairs and seats a member in each. */
static uint8_t start(struct board_register *board) {
    static const struct board_entry members[] = {{"AAA", 50}, {"BBB", 49}, {"CCC", 1}};
    uint8_t refused = board_register_start(members, 3, 1000000, board);
    for (uint64_t chair = 1; chair <= 3 && !refused; chair++) {
        struct board_command seat = {.kind = BOARD_MOVE, .chair = chair};
        memcpy(seat.code, members[chair - 1].code, sizeof seat.code);
        refused = apply(board, (struct board_command){.kind = BOARD_OPEN, .chair = chair});
        if (!refused) refused = apply(board, seat);
    }
    return refused;
}

int main(void) {
    struct board_register board = {0}, copy = {0};
    if (start(&board) || board_register_copy(&board, board_register_accepted(&board), &copy)) return 1;
    print("three chairs", &board);

    /* What if CCC joined chair 2? Only the copy knows. */
    apply(&copy, (struct board_command){.kind = BOARD_MOVE, .code = "CCC", .chair = 2});
    print("the copy", &copy);
    print("the register", &board);

    uint8_t refused = apply(&board, (struct board_command){.kind = BOARD_OPEN, .chair = 1});
    printf("open,1: %d, %s\n", refused, board_refusal_name(refused));
    board_register_free(&copy);
    board_register_free(&board);
    return 0;
}
