/* The calls of board.h that count boards: against a count over all coalitions of small boards, on input that is
 * refused, over a room with other content, on a thread with 96 KB of stack, or the least that the system gives one, and
 * on threads at once. Ends in a line 'N passed, M failed', and in that status. */
#include "board.h"
#include <pthread.h>
#include <stdio.h>
#include <string.h>
#include <unistd.h>

/* The set of all chairs. */
#define ALL UINT64_MAX

enum { CHAIRS = 8, BOARDS = 300, MAJORITIES = 4, STACK = 98304, THREADS = 8, CALLS = 100 };

static struct board_room room;
static int passed, failed;

static void judge(int is_right, const char *what) {
    passed += is_right;
    failed += !is_right;
    if (!is_right) printf("tests/release/calls.c: %s\n", what);
}

/* Random numbers, the same in each run. */
static uint64_t lot(uint64_t most) {
    static uint64_t state = 1946;
    state = state * 6364136223846793005u + 1442695040888963407u;
    return (state >> 33) % (most + 1);
}

/* A board: its open chairs with their weights, and its total. */
struct board {
    uint64_t chairs, numbers[CHAIRS], weights[CHAIRS], total;
};

static uint64_t votes_of(const struct board *board, uint64_t set) {
    uint64_t votes = 0;
    for (uint64_t at = 0; at < board->chairs; at++) votes += (set >> at & 1) * board->weights[at];
    return votes;
}

static uint64_t size_of(const struct board *board, uint64_t set) {
    uint64_t size = 0;
    for (uint64_t at = 0; at < board->chairs; at++) size += set >> at & 1;
    return size;
}

static int wins(const struct board *board, uint32_t majority, uint64_t set) {
    uint64_t votes = votes_of(board, set);
    switch (majority) {
    case BOARD_HALF: return 2 * votes > votes_of(board, ALL);
    case BOARD_SEVENTY: return votes >= 1 && 10 * votes >= 7 * board->total;
    case BOARD_EIGHTY_FIVE: return votes >= 1 && 20 * votes >= 17 * board->total;
    default: return 2 * size_of(board, set) > board->chairs && 2 * votes >= board->total;
    }
}

/* Whether these are the counts of a board, by a count over all its coalitions. */
static int are_counts(const struct board *board, uint32_t majority, const struct board_counts *counts) {
    uint64_t omega = 0, sets = (uint64_t)1 << board->chairs, swings[CHAIRS] = {0};
    int same = 1;
    for (uint64_t set = 0; set < sets; set++) {
        int does_win = wins(board, majority, set);
        omega += (uint64_t)does_win;
        same &= does_win == (votes_of(board, set) >= counts->quota && size_of(board, set) >= counts->least_size);
        for (uint64_t at = 0; at < board->chairs; at++)
            swings[at] += !(set >> at & 1) && !does_win && wins(board, majority, set | (uint64_t)1 << at);
    }
    same &= counts->omega == omega && counts->coalitions == sets && counts->chairs == board->chairs;
    same &= counts->total == board->total && counts->cast == votes_of(board, ALL);
    for (uint64_t at = 0; at < BOARD_CHAIRS; at++) {
        const struct board_chair *row = &counts->rows[at];
        if (at < board->chairs)
            same &= row->chair == board->numbers[at] && row->weight == board->weights[at] && row->swings == swings[at];
        else same &= row->chair == 0 && row->weight == 0 && row->swings == 0;
    }
    return same;
}

/* A board with votes that are not cast, and with its chairs at any places, or at the first ones. */
static struct board drawn(int is_first) {
    struct board board = {0};
    uint64_t most = lot(CHAIRS);
    for (uint64_t chair = 1; chair <= BOARD_CHAIRS && board.chairs < most; chair++) {
        if (!is_first && lot(3) > 0) continue;
        board.numbers[board.chairs] = chair;
        board.weights[board.chairs++] = lot(9);
    }
    board.total = votes_of(&board, ALL) + lot(4);
    return board;
}

static void words_of(const struct board *board, uint64_t *words) {
    memset(words, 0, BOARD_SHEET_WORDS * sizeof *words);
    for (uint64_t at = 0; at < board->chairs; at++) words[board->numbers[at] - 1] = board->weights[at] + 1;
    words[BOARD_CHAIRS] = board->total;
}

/* The members of a board: in each chair one that votes and, if the weight is odd, a suspended one. If the weight is 0
 * the chair has no member, and the mask names it. The last member is in no chair. Returns the number of members. */
static size_t members_of(const struct board *board, struct board_member *members, uint32_t *open_chairs) {
    size_t count = 0;
    *open_chairs = 0;
    for (uint64_t at = 0; at < board->chairs; at++) {
        uint64_t weight = board->weights[at], chair = board->numbers[at];
        if (weight == 0) *open_chairs |= (uint32_t)1 << (chair - 1);
        if (weight > 0) members[count++] = (struct board_member){weight, chair, 0};
        if (weight % 2 == 1) members[count++] = (struct board_member){UINT64_MAX, chair, at + 1};
    }
    members[count++] = (struct board_member){board->total - votes_of(board, ALL), 0, 0};
    return count;
}

static void count_boards(void) {
    for (int at = 0; at < BOARDS; at++) {
        int is_first = at % 2;
        struct board board = drawn(is_first);
        struct board_member members[2 * CHAIRS + 1];
        struct board_counts counts;
        struct board_all_counts all;
        uint64_t words[BOARD_SHEET_WORDS];
        uint32_t open_chairs;
        size_t count = members_of(&board, members, &open_chairs);
        words_of(&board, words);
        memset(&room, at, sizeof room);
        int done = board_all_counts_of_sheet(words, BOARD_SHEET_WORDS, &room, &all) == BOARD_DONE;
        const struct board_counts *of_all[MAJORITIES] = {&all.half, &all.seventy, &all.eighty_five, &all.quorum};
        for (uint32_t majority = 0; majority < MAJORITIES; majority++) {
            judge(done && are_counts(&board, majority, of_all[majority]), "board_all_counts_of_sheet");
            done &= board_counts_of_sheet(words, BOARD_SHEET_WORDS, majority, &room, &counts) == BOARD_DONE;
            judge(done && are_counts(&board, majority, &counts), "board_counts_of_sheet");
            done &= board_counts_of_members(members, count, open_chairs, majority, &room, &counts) == BOARD_DONE;
            judge(done && are_counts(&board, majority, &counts), "board_counts_of_members");
            if (!is_first) continue;
            const uint64_t *weights = board.weights;
            done &= board_counts_of_weights(weights, board.chairs, board.total, majority, &room, &counts) == BOARD_DONE;
            judge(done && are_counts(&board, majority, &counts), "board_counts_of_weights");
        }
    }
}

/* A refusal has its number, and leaves the counts. */
static struct board_all_counts kept, before;

static void refused(uint8_t answer, uint8_t wanted, const char *what) {
    judge(answer == wanted && memcmp(&kept, &before, sizeof kept) == 0, what);
}

static void refuse(void) {
    const uint64_t most = (uint64_t)1 << 48, half = (uint64_t)1 << 63;
    const uint64_t three[] = {50, 49, 1}, high[] = {UINT64_MAX}, wraps[] = {half, half, 1};
    const size_t lengths[] = {33, (size_t)1 << 61, (size_t)1 << 63, SIZE_MAX}, words_len = BOARD_SHEET_WORDS;
    const uint32_t majorities[] = {MAJORITIES, 255, 256, UINT32_MAX};
    const struct board_member far = {1, 33, 0}, heavy[] = {{most, 1, 0}, {1, 0, 0}}, one = {1, 1, 0};
    uint64_t words[BOARD_SHEET_WORDS] = {0};
    memset(&kept, 7, sizeof kept);
    before = kept;
    struct board_counts *counts = &kept.half;
    for (int at = 0; at < 4; at++) {
        size_t len = lengths[at];
        uint32_t majority = majorities[at];
        refused(board_counts_of_weights(NULL, len, 0, 0, &room, counts), BOARD_BAD_SHEET, "too many weights");
        refused(board_counts_of_sheet(NULL, len, 0, &room, counts), BOARD_BAD_SHEET, "too many words");
        refused(board_all_counts_of_sheet(NULL, len, &room, &kept), BOARD_BAD_SHEET, "too many words for all");
        refused(board_counts_of_weights(three, 3, 100, majority, &room, counts), BOARD_BAD_RECORD, "no majority");
        refused(board_counts_of_sheet(words, words_len, majority, &room, counts), BOARD_BAD_RECORD, "no majority");
        refused(board_counts_of_members(&one, 1, 0, majority, &room, counts), BOARD_BAD_RECORD, "no majority");
    }
    refused(board_counts_of_weights(three, 3, 99, 9, &room, counts), BOARD_BAD_SHEET, "a total below the sum");
    refused(board_counts_of_weights(three, 3, most + 1, 0, &room, counts), BOARD_BAD_SHEET, "a total above 2^48");
    refused(board_counts_of_weights(high, 1, 0, 0, &room, counts), BOARD_BAD_SHEET, "a weight of 2^64 - 1");
    refused(board_counts_of_weights(wraps, 3, 1, 0, &room, counts), BOARD_BAD_SHEET, "a sum above 2^64");
    refused(board_counts_of_sheet(words, words_len - 1, 0, &room, counts), BOARD_BAD_SHEET, "33 words");
    refused(board_counts_of_sheet(NULL, 0, 0, &room, counts), BOARD_BAD_SHEET, "no words");
    refused(board_counts_of_members(&far, 1, 0, 9, &room, counts), BOARD_BAD_SHEET, "a member in chair 33");
    refused(board_counts_of_members(heavy, 2, 0, 0, &room, counts), BOARD_BAD_SHEET, "a total of members above 2^48");
    words[BOARD_SHEET_WORDS - 1] = 1000001;
    refused(board_all_counts_of_sheet(words, words_len, &room, &kept), BOARD_BAD_SHEET, "a front above a million");
}

static void count_largest(void) {
    uint64_t weights[BOARD_CHAIRS];
    struct board_counts counts;
    for (int at = 0; at < BOARD_CHAIRS; at++) weights[at] = (uint64_t)1 << 43;
    for (uint32_t majority = 0; majority < MAJORITIES; majority++) {
        uint8_t answer = board_counts_of_weights(weights, BOARD_CHAIRS, (uint64_t)1 << 48, majority, &room, &counts);
        judge(answer == BOARD_DONE && counts.rows[0].swings == counts.rows[31].swings, "32 equal chairs");
    }
    for (int list = 0; list < 2; list++) {
        uint8_t answer = list ? board_counts_of_weights(NULL, 0, 0, BOARD_HALF, &room, &counts)
                              : board_counts_of_members(NULL, 0, 0, BOARD_HALF, &room, &counts);
        judge(answer == BOARD_DONE && counts.omega == 0 && counts.coalitions == 1, "NULL with length 0");
    }
}

/* A thread's board and room, and how often it repeated its first counts. */
struct work {
    uint64_t weights[BOARD_CHAIRS / 2];
    struct board_room room;
    int same;
};

static void *count_beside(void *given) {
    struct work *work = given;
    struct board_counts first, counts;
    uint64_t total = 0;
    for (int at = 0; at < BOARD_CHAIRS / 2; at++) total += work->weights[at];
    for (int call = 0; call < CALLS; call++) {
        struct board_counts *to = call ? &counts : &first;
        if (board_counts_of_weights(work->weights, BOARD_CHAIRS / 2, total, BOARD_HALF, &work->room, to)) return NULL;
        work->same += call == 0 || memcmp(&first, &counts, sizeof first) == 0;
    }
    return NULL;
}

/* Threads count at once, each another board in a separate room, and then all boards are counted one after another. */
static void count_in_threads(void) {
    static struct work works[THREADS], again[THREADS];
    pthread_t threads[THREADS];
    for (int at = 0; at < THREADS; at++) {
        for (int chair = 0; chair < BOARD_CHAIRS / 2; chair++) works[at].weights[chair] = lot(1000) + 1;
        again[at] = works[at];
        judge(pthread_create(&threads[at], NULL, count_beside, &works[at]) == 0, "a thread isn't started");
    }
    for (int at = 0; at < THREADS; at++) {
        pthread_join(threads[at], NULL);
        count_beside(&again[at]);
        judge(works[at].same == CALLS && again[at].same == CALLS, "calls in threads");
        judge(memcmp(&works[at].room, &again[at].room, sizeof works[at].room) == 0, "the lists of a thread");
    }
}

static void *all_calls(void *nothing) {
    count_boards();
    refuse();
    count_largest();
    return nothing;
}

int main(void) {
    pthread_attr_t attributes;
    pthread_t thread;
    size_t least = (size_t)sysconf(_SC_THREAD_STACK_MIN), stack = STACK < least ? least : STACK;
    if (pthread_attr_init(&attributes) || pthread_attr_setstacksize(&attributes, stack)) return 1;
    if (pthread_create(&thread, &attributes, all_calls, NULL) || pthread_join(thread, NULL)) return 1;
    count_in_threads();
    printf("%d passed, %d failed\n", passed, failed);
    return failed != 0;
}
