/* In C11 and in C++11: the sizes and the alignment of the structs of board.h are those that it gives as numbers, and in
 * C++ the structs need no `struct`, since no call has the name of one. Counts, keeps a register, and reads a script. */
#include "board.h"
#include <stdio.h>
#include <string.h>

#ifdef __cplusplus
#define ALIGNMENT_OF alignof
#else
#include <assert.h>
#define ALIGNMENT_OF _Alignof
typedef struct board_all_counts board_all_counts;
typedef struct board_chair board_chair;
typedef struct board_command board_command;
typedef struct board_counts board_counts;
typedef struct board_entry board_entry;
typedef struct board_item board_item;
typedef struct board_member board_member;
typedef struct board_member_row board_member_row;
typedef struct board_register board_register;
typedef struct board_room board_room;
#endif

#define IS_SIZE(type, bytes) \
    static_assert(sizeof(type) == (bytes) && ALIGNMENT_OF(type) == BOARD_ALIGNMENT, "another size or alignment")

IS_SIZE(board_chair, BOARD_CHAIR_BYTES);
IS_SIZE(board_counts, BOARD_COUNTS_BYTES);
IS_SIZE(board_all_counts, BOARD_ALL_COUNTS_BYTES);
IS_SIZE(board_member, BOARD_MEMBER_BYTES);
IS_SIZE(board_room, BOARD_ROOM_BYTES);
IS_SIZE(board_register, BOARD_REGISTER_BYTES);
IS_SIZE(board_entry, BOARD_ENTRY_BYTES);
IS_SIZE(board_command, BOARD_COMMAND_BYTES);
IS_SIZE(board_member_row, BOARD_MEMBER_ROW_BYTES);
IS_SIZE(board_item, BOARD_ITEM_BYTES);

static const char script[] = "member,votes\nAAA,50\nBBB,49\nCCC,1\nscript\n"
                             "open,1\nopen,2\nopen,3\nmove,AAA,1\nmove,BBB,2\nmove,CCC,3\npublish\nread,1,half\n";

/* Carries out the records of a script, and returns how many were refused. */
static int carry_out(board_register *handle, const board_item *items, size_t many, board_room *room,
                     board_counts *read) {
    int refused = 0;
    for (size_t at = 0; at < many; at++) {
        uint32_t number;
        if (items[at].command.kind == BOARD_PUBLISH) refused += board_register_publish(handle, &number) != BOARD_DONE;
        else if (items[at].command.kind == BOARD_READ)
            refused += board_register_read(handle, items[at].majority, room, read) != BOARD_DONE;
        else refused += board_register_apply(handle, &items[at].command, &number) != BOARD_DONE;
    }
    return refused;
}

int main(void) {
    static board_room room;
    board_register handle = {0, 0};
    board_entry entries[BOARD_MEMBERS];
    board_item items[16];
    board_counts counts, read;
    board_all_counts all;
    size_t members, many;
    uint32_t record;
    uint64_t words[BOARD_SHEET_WORDS];
    const uint8_t *input = (const uint8_t *)script;
    int failed = board_script(input, strlen(script), 1, entries, BOARD_MEMBERS, &members, items, 16, &many, &record);
    failed += members != 3 || many != 8 || items[7].number != 13 || record != 0;
    failed += memcmp(input + items[6].from, "publish", items[6].to - items[6].from) != 0;
    failed += board_register_start(entries, members, BOARD_COMMANDS, &handle) != BOARD_DONE;
    failed += carry_out(&handle, items, many, &room, &read);
    failed += board_register_sheet(&handle, words) != BOARD_DONE;
    failed += board_counts_of_sheet(words, BOARD_SHEET_WORDS, BOARD_HALF, &room, &counts) != BOARD_DONE;
    failed += board_all_counts_of_sheet(words, BOARD_SHEET_WORDS, &room, &all) != BOARD_DONE;
    failed += memcmp(&counts, &read, sizeof read) != 0 || memcmp(&counts, &all.half, sizeof counts) != 0;
    failed += counts.rows[0].swings != 3;
    board_register_free(&handle);
    puts(failed ? "wrong" : "3 swings");
    return failed != 0;
}
