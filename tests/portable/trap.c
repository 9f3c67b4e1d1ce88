/* Calls that come to what is proved to be out of reach: each returns what its BEGIN says, and the program goes on. */
#include "board.c"
#include <stdio.h>

enum { DEEP = 20, TIMES = 3, FRAME = 256, OTHERWISE = 77 };

/* Calls itself `depth` times, takes some of the stack at each call, and may trap in the last one. */
static void go_down(struct call *call, int depth, int traps) {
    u64 at = call->stack -= FRAME;
    host_i64_store(at, (u64)depth, 0);
    if (depth > 0) go_down(call, depth - 1, traps);
    else if (traps) UNREACHABLE;
    call->stack = at + FRAME;
}

static uint8_t answer(int depth, int traps) {
    BEGIN((DEEP + 1) * FRAME, BOARD_TRAPPED);
    go_down(&call, depth, traps);
    return BOARD_DONE;
}

static void answer_nothing(int depth) {
    BEGIN((DEEP + 1) * FRAME, );
    go_down(&call, depth, 1);
    exit(1);
}

static u64 divided(struct call *call, u64 number, u64 by) { return DIV_U(number, by) + REM_U(number, by); }

static u64 quotient(u64 number, u64 by) {
    BEGIN(FRAME, OTHERWISE);
    return divided(&call, number, by);
}

/* Whether a replay has its text. */
static int replays(void) {
    static const char input[] = "member,votes\nAAA,1\nscript\nopen,1\n", line[] = "accepted,1\n";
    uint8_t text[sizeof line];
    uint64_t written;
    uint32_t record;
    uint8_t fault = board_replay((const uint8_t *)input, strlen(input), 1, 1, text, sizeof text, &written, &record);
    return fault == BOARD_DONE && written == strlen(line) && !memcmp(text, line, strlen(line));
}

int main(void) {
    int failed = 0;
    for (int time = 0; time < TIMES; time++) {
        for (int depth = 0; depth <= DEEP; depth++) {
            failed += answer(depth, 1) != BOARD_TRAPPED || answer(depth, 0) != BOARD_DONE;
            answer_nothing(depth);
        }
        failed += quotient(7, 0) != OTHERWISE || quotient(7, 2) != 4 || !replays();
    }
    puts(failed ? "wrong" : "trapped");
    return failed != 0;
}
