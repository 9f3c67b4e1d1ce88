/* Replays inputs from standard input by board_replay, or traces them by board_trace after the word `trace`, and writes
 * for each the number of its fault, the number of the fault's record, the length of the text, and the text. An input is
 * four words of 64 bits, its length, the readers, the limit of the journal and the room for the text, and then its
 * bytes. The room is the length of the text, and so board_replay_length or board_trace_length must find it, too. */
#include <stdio.h>
#include <stdlib.h>
#include <string.h>

#include "board.h"

enum { MARGIN = 64, UNTOUCHED = 0xAA };

static uint8_t *block_of(size_t bytes) {
    uint8_t *block = malloc(bytes);
    if (!block) exit(1);
    return block;
}

static int are_untouched(const uint8_t *bytes, size_t len) {
    for (size_t at = 0; at < len; at++)
        if (bytes[at] != UNTOUCHED) return 0;
    return 1;
}

int main(int many, char **words) {
    int traces = many > 1 && strcmp(words[1], "trace") == 0;
    uint64_t given[4];
    while (fread(given, sizeof given, 1, stdin) == 1) {
        size_t len = given[0], room = given[3];
        uint8_t *input = block_of(len + 1), *around = block_of(MARGIN + room + MARGIN), *out = around + MARGIN;
        uint64_t written, length;
        uint32_t record, its_record;
        uint32_t readers = (uint32_t)given[1], journal = (uint32_t)given[2];
        if (fread(input, 1, len, stdin) != len) exit(1);
        memset(around, UNTOUCHED, MARGIN + room + MARGIN);
        uint8_t fault =
            (traces ? board_trace : board_replay)(input, len, readers, journal, out, room, &written, &record);
        uint8_t its_fault =
            (traces ? board_trace_length : board_replay_length)(input, len, readers, journal, &length, &its_record);
        if (length != room || its_fault != fault || its_record != record) exit(1);
        if (!are_untouched(around, MARGIN) || !are_untouched(out + written, room - written + MARGIN)) exit(1);
        putchar(fault);
        fwrite(&record, sizeof record, 1, stdout);
        fwrite(&written, sizeof written, 1, stdout);
        fwrite(out, 1, written, stdout);
        free(input);
        free(around);
    }
    return 0;
}
