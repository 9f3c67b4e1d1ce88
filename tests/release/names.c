/* Prints the version of the library, and each number that has a name, with it. */
#include "board.h"
#include <inttypes.h>
#include <stdio.h>
#include <string.h>

enum { NUMBERS = 1000 };

int main(void) {
    puts(board_version());
    for (uint32_t number = 0; number < NUMBERS; number++)
        if (board_refusal_name(number)[0]) printf("%" PRIu32 " %s\n", number, board_refusal_name(number));
    return strcmp(board_refusal_name(UINT32_MAX), "") != 0;
}
