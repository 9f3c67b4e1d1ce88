/* A script as data: its records are carried out one by one on a register, and a copy of the register says what would
 * follow if member CCC moved to chair 2. */
#include "board.h"
#include <inttypes.h>
#include <stdio.h>
#include <string.h>

enum { ITEMS = 16 };

static const char script[] = "member,votes\nAAA,50\nBBB,49\nCCC,1\nscript\n"
                             "open,1\nopen,2\nopen,3\nmove,AAA,1\nmove,BBB,2\nmove,CCC,3\nopen,1\n"
                             "publish\nread,1,half\n";

static struct board_room room;

static void print(const char *what, const struct board_counts *counts) {
    printf("%s: %" PRIu64 " votes win, swings", what, counts->quota);
    for (uint64_t at = 0; at < counts->chairs; at++) printf(" %" PRIu64, counts->rows[at].swings);
    printf("\n");
}

/* Carries out a record of the script. */
static void carry_out(struct board_register *board, const struct board_item *item) {
    struct board_counts counts;
    uint32_t number;
    if (item->command.kind == BOARD_PUBLISH) {
        board_register_publish(board, &number);
    } else if (item->command.kind == BOARD_READ) {
        board_register_read(board, item->majority, &room, &counts);
        print("read", &counts);
    } else {
        uint8_t refusal = board_register_apply(board, &item->command, &number);
        int bytes = (int)(item->to - item->from);
        if (refusal) printf("%.*s: %s\n", bytes, script + item->from, board_refusal_name(refusal));
    }
}

int main(void) {
    struct board_entry members[BOARD_MEMBERS];
    struct board_item items[ITEMS];
    struct board_register board = {0}, other = {0};
    const struct board_command move = {.kind = BOARD_MOVE, .code = "CCC", .chair = 2};
    struct board_counts counts;
    size_t many, records;
    uint32_t record, accepted;
    if (board_script((const uint8_t *)script, strlen(script), 1, members, BOARD_MEMBERS, &many, items, ITEMS, &records,
                     &record))
        return 1;
    if (board_register_start(members, many, BOARD_COMMANDS, &board)) return 1;
    for (size_t at = 0; at < records; at++) carry_out(&board, &items[at]);

    if (board_register_copy(&board, BOARD_COMMANDS, &other)) return 1;
    if (board_register_apply(&other, &move, &accepted)) return 1;
    if (board_register_counts(&other, BOARD_HALF, &room, &counts)) return 1;
    print("if CCC moved", &counts);
    printf("%" PRIu32 " commands, and %" PRIu32 " there\n", board_register_accepted(&board), accepted);
    board_register_free(&other);
    board_register_free(&board);
    return 0;
}
