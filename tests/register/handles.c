/* Calls on handles without a register: one whose words are 0, one that was freed, one that was freed twice, and one
 * whose start was refused. Each call is refused and writes nothing. And what start refuses, in its order. */
#include "model.h"

static struct board_room room;

/* What calls write to, as bytes that aren't changed. */
static union {
    struct board_counts counts;
    struct board_all_counts all;
    struct board_member_row row;
    struct board_entry entry;
    struct board_command command;
    uint64_t words[BOARD_SHEET_WORDS];
    uint32_t number;
} to, before;

static void is_refused(uint8_t answer, const char *what) {
    if (answer != BOARD_NO_REGISTER) stop(what, answer);
    if (memcmp(&to, &before, sizeof to) != 0) stop("a refused call writes", answer);
}

/* All calls on a handle without a register. */
static void refuse_all(struct board_register *handle) {
    const struct board_command open = {.kind = BOARD_OPEN, .chair = 1}, bad = {.kind = BOARD_READ};
    struct board_register copy = {0};
    memset(&to, 7, sizeof to);
    before = to;
    is_refused(board_register_apply(handle, &open, &to.number), "apply");
    is_refused(board_register_apply(handle, &bad, &to.number), "apply of no command");
    is_refused(board_register_check(handle, &open), "check");
    is_refused(board_register_check(handle, &bad), "check of no command");
    is_refused(board_register_publish(handle, &to.number), "publish");
    is_refused(board_register_member_at(handle, 0, &to.row), "member_at");
    is_refused(board_register_entry_at(handle, 0, &to.entry), "entry_at");
    is_refused(board_register_command_at(handle, 0, &to.command), "command_at");
    is_refused(board_register_sheet(handle, to.words), "sheet");
    is_refused(board_register_counts(handle, BOARD_HALF, &room, &to.counts), "counts");
    is_refused(board_register_counts(handle, UINT32_MAX, &room, &to.counts), "counts by no majority");
    is_refused(board_register_all_counts(handle, &room, &to.all), "all_counts");
    is_refused(board_register_read(handle, BOARD_HALF, &room, &to.counts), "read");
    is_refused(board_register_read(handle, UINT32_MAX, &room, &to.counts), "read by no majority");
    is_refused(board_register_copy(handle, 0, &copy), "copy");
    if (copy.at != NULL || copy.state != 0) stop("a refused copy", copy.state);
    if (board_register_accepted(handle) || board_register_published(handle)) stop("commands of no register", 0);
    if (board_register_members(handle) || board_register_entries(handle)) stop("members of no register", 0);
    board_register_free(handle);
    if (handle->state != 0) stop("a state after free", handle->state);
}

/* A refused start leaves the handle as it was, with or without a register. */
static void refuse_start(const struct board_entry *entries, size_t len, uint32_t journal, uint8_t wanted) {
    struct board_register none = {0}, kept = {0};
    static struct model model;
    const struct board_entry one = {"KEP", 5};
    if (board_register_start(entries, len, journal, &none) != wanted) stop("another refusal of a start", wanted);
    if (none.at != NULL || none.state != 0) stop("a refused start changes the handle", wanted);
    refuse_all(&none);
    if (board_register_start(&one, 1, 1, &kept) != BOARD_DONE) stop("no start", wanted);
    start_model(&model, &one, 1, 1);
    struct board_register same = kept;
    if (board_register_start(entries, len, journal, &kept) != wanted) stop("another refusal of a second start", wanted);
    if (same.at != kept.at || same.state != kept.state) stop("a refused start changes a handle", wanted);
    compare(&kept, &model, wanted);
    board_register_free(&kept);
    refuse_all(&kept);
    end_model(&model);
}

static void refuse_starts(void) {
    enum { MANY = BOARD_MEMBERS + 1 };
    static struct board_entry entries[MANY];
    for (int at = 0; at < MANY; at++) {
        const char code[4] = {'A', (char)('A' + at / 26), (char)('A' + at % 26), 0};
        memcpy(entries[at].code, code, sizeof code);
    }
    refuse_start(entries, 2, 0, BOARD_BAD_LIMIT);
    refuse_start(entries, MANY, BOARD_COMMANDS + 1, BOARD_BAD_LIMIT);
    refuse_start(entries, 2, UINT32_MAX, BOARD_BAD_LIMIT);
    refuse_start(NULL, 0, 0, BOARD_BAD_LIMIT);
    refuse_start(entries, MANY, 1, BOARD_TOO_MANY_MEMBERS);
    memcpy(entries[1].code, entries[0].code, sizeof entries[0].code);
    refuse_start(entries, MANY, 1, BOARD_TOO_MANY_MEMBERS);
    refuse_start(entries, BOARD_MEMBERS, 1, BOARD_DUPLICATE_MEMBER);
    refuse_start(entries, 2, 0, BOARD_BAD_LIMIT);
    entries[2].votes = MOST_VOTES + 1;
    refuse_start(entries, MANY, 0, BOARD_VOTES_TOO_LARGE);
    entries[2].code[0] = 'a';
    refuse_start(entries, MANY, 0, BOARD_BAD_MEMBER);
    entries[1].votes = UINT64_MAX;
    refuse_start(entries, MANY, 0, BOARD_VOTES_TOO_LARGE);
    refuse_start(entries, 2, 1, BOARD_VOTES_TOO_LARGE);
    entries[0].code[3] = 'A';
    refuse_start(entries, 1, 1, BOARD_BAD_MEMBER);
}

/* Opens two chairs, where the journal has room for one command. */
static void fill_journal(struct board_register *handle, struct model *model) {
    for (uint64_t chair = 1; chair <= 2; chair++) {
        const struct board_command open = {.kind = BOARD_OPEN, .chair = chair};
        uint32_t accepted = 0;
        uint8_t wanted = chair == 1 ? BOARD_DONE : BOARD_JOURNAL_FULL;
        if (answer_of(model, &open) != wanted) stop("another answer of the model", chair);
        if (board_register_apply(handle, &open, &accepted) != wanted) stop("another answer", chair);
        if (wanted == BOARD_DONE) obey(model, &open);
        compare(handle, model, chair);
        compare_history(handle, model, 0, chair);
    }
}

/* A register of no members, and one that replaces it. */
static void start_all(void) {
    struct board_register handle = {0};
    static struct model model;
    if (board_register_start(NULL, 0, BOARD_COMMANDS, &handle) != BOARD_DONE) stop("no start without members", 0);
    start_model(&model, NULL, 0, BOARD_COMMANDS);
    compare(&handle, &model, 0);
    const struct board_entry most = {"ZZZ", (uint64_t)1 << 40};
    if (board_register_start(&most, 1, 1, &handle) != BOARD_DONE) stop("no start over a start", 0);
    end_model(&model);
    start_model(&model, &most, 1, 1);
    compare(&handle, &model, 1);
    fill_journal(&handle, &model);
    end_model(&model);
    board_register_free(&handle);
    refuse_all(&handle);
    board_register_free(&handle);
    refuse_all(&handle);
}

/* As many commands as a journal can have, and one more; and a copy of all of them. */
static void fill_longest_journal(void) {
    struct board_register handle = {0}, copy = {0};
    struct board_command command = {.chair = BOARD_CHAIRS};
    uint32_t accepted = 0;
    if (board_register_start(NULL, 0, BOARD_COMMANDS, &handle) != BOARD_DONE) stop("no start of a long journal", 0);
    for (uint32_t at = 0; at < BOARD_COMMANDS; at++) {
        command.kind = at % 2 ? BOARD_CLOSE : BOARD_OPEN;
        uint8_t answer = board_register_apply(&handle, &command, &accepted);
        if (answer != BOARD_DONE || accepted != at + 1) stop("a command of a long journal", at);
    }
    command.kind = BOARD_OPEN;
    if (board_register_copy(&handle, BOARD_COMMANDS, &copy) != BOARD_DONE) stop("no copy of a long journal", 0);
    struct board_register *full[] = {&handle, &copy};
    for (int at = 0; at < 2; at++) {
        uint8_t answer = board_register_apply(full[at], &command, &accepted);
        if (answer != BOARD_JOURNAL_FULL || accepted != BOARD_COMMANDS) stop("one command too many", answer);
        if (board_register_check(full[at], &command) != BOARD_JOURNAL_FULL) stop("a check of one too many", 0);
        if (board_register_accepted(full[at]) != BOARD_COMMANDS) stop("another number of commands", 0);
        board_register_free(full[at]);
    }
}

int main(void) {
    struct board_register none = {0};
    refuse_all(&none);
    board_register_free(&none);
    refuse_all(&none);
    refuse_starts();
    start_all();
    fill_longest_journal();
    puts("all refused");
    return 0;
}
