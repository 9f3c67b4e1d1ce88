/* A whole replay of the first example, by the library: board_replay does what `board replay` does. */
#include "board.h"
#include <inttypes.h>
#include <stdio.h>
#include <string.h>

static const char script[] = "member,votes\nAAA,50\nBBB,49\nCCC,1\nscript\n"
                             "open,1\nopen,2\nopen,3\nmove,AAA,1\nmove,BBB,2\nmove,CCC,3\n"
                             "publish\nread,1,half\n";

int main(void) {
    static uint8_t text[4096];
    uint64_t written;
    uint32_t record;
    uint8_t fault =
        board_replay((const uint8_t *)script, strlen(script), 1, 1000000, text, sizeof text, &written, &record);
    fwrite(text, 1, written, stdout);
    if (fault != BOARD_DONE) {
        fprintf(stderr, "fault %d at record %" PRIu32 "\n", fault, record);
        return 1;
    }
    return 0;
}
