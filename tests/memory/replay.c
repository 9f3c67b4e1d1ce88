/* Replays standard input by the library, or traces it after the word `trace`, for tests/memory/run. The text goes to
 * standard output, and the answer is the status. After OutOfMemory the same call is made again: if it doesn't return
 * BOARD_DONE, the status is FAILED_AGAIN. The program requests no memory itself. */
#include <string.h>
#include <unistd.h>

#include "board.h"

enum { MOST = 1 << 20, JOURNAL = 1000000, FAILED_AGAIN = 99 };

static uint8_t input[MOST], text[MOST], again[MOST];

int main(int many, char **words) {
    uint8_t (*run)(const uint8_t *, size_t, uint32_t, uint32_t, uint8_t *, size_t, uint64_t *, uint32_t *) =
        many > 1 && strcmp(words[1], "trace") == 0 ? board_trace : board_replay;
    size_t len = 0;
    ssize_t more;
    while ((more = read(STDIN_FILENO, input + len, MOST - len)) > 0) len += (size_t)more;
    uint64_t written;
    uint32_t record;
    uint8_t answer = run(input, len, 1, JOURNAL, text, MOST, &written, &record);
    if (write(STDOUT_FILENO, text, written) != (ssize_t)written) return FAILED_AGAIN;
    if (answer != BOARD_OUT_OF_MEMORY) return answer;
    return run(input, len, 1, JOURNAL, again, MOST, &written, &record) == BOARD_DONE ? answer : FAILED_AGAIN;
}
