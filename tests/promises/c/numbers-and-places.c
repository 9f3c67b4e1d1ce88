/* The numbers of board.h by their names, and the size of each struct and the place of each of its fields, which a
 * program that is compiled already has in it. The pointer of a handle is left out: it is of the system. */
#include "board.h"
#include <stddef.h>
#include <stdio.h>

#define NUMBER(name) printf(#name " %d\n", (int)(name))
#define SIZE(type) printf(#type " has %d bytes\n", (int)sizeof(struct type))
#define PLACE(type, field) printf("  " #field " at %d\n", (int)offsetof(struct type, field))

static void numbers(void) {
    NUMBER(BOARD_CHAIRS);
    NUMBER(BOARD_MEMBERS);
    NUMBER(BOARD_COMMANDS);
    NUMBER(BOARD_READERS);
    NUMBER(BOARD_INPUT_BYTES);
    NUMBER(BOARD_SHEET_WORDS);
    NUMBER(BOARD_ROOM_SETS);
    NUMBER(BOARD_MAJORITIES);
    NUMBER(BOARD_COMMAND_TEXT);
    NUMBER(BOARD_ALIGNMENT);
    NUMBER(BOARD_CHAIR_BYTES);
    NUMBER(BOARD_COUNTS_BYTES);
    NUMBER(BOARD_ALL_COUNTS_BYTES);
    NUMBER(BOARD_MEMBER_BYTES);
    NUMBER(BOARD_ROOM_BYTES);
    NUMBER(BOARD_REGISTER_BYTES);
    NUMBER(BOARD_ENTRY_BYTES);
    NUMBER(BOARD_COMMAND_BYTES);
    NUMBER(BOARD_MEMBER_ROW_BYTES);
    NUMBER(BOARD_ITEM_BYTES);
    NUMBER(BOARD_DONE);
    NUMBER(BOARD_CHAIR_OPEN);
    NUMBER(BOARD_CHAIR_NOT_OPEN);
    NUMBER(BOARD_CHAIR_HAS_MEMBERS);
    NUMBER(BOARD_UNKNOWN_MEMBER);
    NUMBER(BOARD_MEMBER_SUSPENDED);
    NUMBER(BOARD_ALREADY_THERE);
    NUMBER(BOARD_ALREADY_SUSPENDED);
    NUMBER(BOARD_NOT_SUSPENDED);
    NUMBER(BOARD_JOURNAL_FULL);
    NUMBER(BOARD_OUT_OF_MEMORY);
    NUMBER(BOARD_DUPLICATE_MEMBER);
    NUMBER(BOARD_TOO_MANY_MEMBERS);
    NUMBER(BOARD_BAD_LIMIT);
    NUMBER(BOARD_BAD_CHAIR);
    NUMBER(BOARD_BAD_MEMBER);
    NUMBER(BOARD_VOTES_TOO_LARGE);
    NUMBER(BOARD_BAD_RECORD);
    NUMBER(BOARD_WRITE_FAULT);
    NUMBER(BOARD_BAD_HEADER);
    NUMBER(BOARD_BAD_READER);
    NUMBER(BOARD_MEMBER_EXISTS);
    NUMBER(BOARD_MEMBER_SEATED);
    NUMBER(BOARD_NO_SCRIPT);
    NUMBER(BOARD_TOO_LONG);
    NUMBER(BOARD_BAD_SHEET);
    NUMBER(BOARD_NO_REGISTER);
    NUMBER(BOARD_BAD_INDEX);
    NUMBER(BOARD_TRAPPED);
    NUMBER(BOARD_HALF);
    NUMBER(BOARD_SEVENTY);
    NUMBER(BOARD_EIGHTY_FIVE);
    NUMBER(BOARD_QUORUM);
    NUMBER(BOARD_OPEN);
    NUMBER(BOARD_CLOSE);
    NUMBER(BOARD_MOVE);
    NUMBER(BOARD_VOTES);
    NUMBER(BOARD_SUSPEND);
    NUMBER(BOARD_RESTORE);
    NUMBER(BOARD_ADMIT);
    NUMBER(BOARD_WITHDRAW);
    NUMBER(BOARD_PUBLISH);
    NUMBER(BOARD_READ);
}

static void places(void) {
    SIZE(board_chair);
    PLACE(board_chair, chair);
    PLACE(board_chair, weight);
    PLACE(board_chair, swings);
    SIZE(board_counts);
    PLACE(board_counts, quota);
    PLACE(board_counts, least_size);
    PLACE(board_counts, cast);
    PLACE(board_counts, total);
    PLACE(board_counts, chairs);
    PLACE(board_counts, omega);
    PLACE(board_counts, coalitions);
    PLACE(board_counts, rows);
    SIZE(board_all_counts);
    PLACE(board_all_counts, half);
    PLACE(board_all_counts, seventy);
    PLACE(board_all_counts, eighty_five);
    PLACE(board_all_counts, quorum);
    SIZE(board_member);
    PLACE(board_member, votes);
    PLACE(board_member, chair);
    PLACE(board_member, suspended);
    SIZE(board_room);
    PLACE(board_room, left);
    PLACE(board_room, right);
    SIZE(board_register);
    PLACE(board_register, state);
    SIZE(board_entry);
    PLACE(board_entry, code);
    PLACE(board_entry, votes);
    SIZE(board_command);
    PLACE(board_command, kind);
    PLACE(board_command, code);
    PLACE(board_command, chair);
    PLACE(board_command, votes);
    SIZE(board_member_row);
    PLACE(board_member_row, code);
    PLACE(board_member_row, suspended);
    PLACE(board_member_row, chair);
    PLACE(board_member_row, votes);
    SIZE(board_item);
    PLACE(board_item, command);
    PLACE(board_item, number);
    PLACE(board_item, reader);
    PLACE(board_item, majority);
    PLACE(board_item, from);
    PLACE(board_item, to);
}

int main(void) {
    numbers();
    places();
    return 0;
}
