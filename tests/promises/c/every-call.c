/* Each call of board.h, by a pointer of its type, so that a call with other parameters doesn't compile; and what it
 * answers on three chairs. */
#include "board.h"
#include <inttypes.h>
#include <stdio.h>
#include <string.h>

static const struct {
    uint8_t (*counts_of_sheet)(const uint64_t *, size_t, uint32_t, struct board_room *, struct board_counts *);
    uint8_t (*all_counts_of_sheet)(const uint64_t *, size_t, struct board_room *, struct board_all_counts *);
    uint8_t (*counts_of_weights)(const uint64_t *, size_t, uint64_t, uint32_t, struct board_room *,
                                 struct board_counts *);
    uint8_t (*counts_of_members)(const struct board_member *, size_t, uint32_t, uint32_t, struct board_room *,
                                 struct board_counts *);
    uint8_t (*start)(const struct board_entry *, size_t, uint32_t, struct board_register *);
    uint8_t (*apply)(struct board_register *, const struct board_command *, uint32_t *);
    uint8_t (*check)(const struct board_register *, const struct board_command *);
    uint8_t (*publish)(struct board_register *, uint32_t *);
    uint32_t (*accepted)(const struct board_register *);
    uint32_t (*published)(const struct board_register *);
    size_t (*members)(const struct board_register *);
    size_t (*entries)(const struct board_register *);
    uint8_t (*member_at)(const struct board_register *, size_t, struct board_member_row *);
    uint8_t (*entry_at)(const struct board_register *, size_t, struct board_entry *);
    uint8_t (*command_at)(const struct board_register *, size_t, struct board_command *);
    uint8_t (*sheet)(const struct board_register *, uint64_t *);
    uint8_t (*counts)(const struct board_register *, uint32_t, struct board_room *, struct board_counts *);
    uint8_t (*all_counts)(const struct board_register *, struct board_room *, struct board_all_counts *);
    uint8_t (*read)(const struct board_register *, uint32_t, struct board_room *, struct board_counts *);
    uint8_t (*copy)(const struct board_register *, uint32_t, struct board_register *);
    uint8_t (*undo)(struct board_register *, uint32_t, uint32_t);
    void (*free)(struct board_register *);
    uint8_t (*script)(const uint8_t *, size_t, uint32_t, struct board_entry *, size_t, size_t *, struct board_item *,
                      size_t, size_t *, uint32_t *);
    uint8_t (*replay)(const uint8_t *, size_t, uint32_t, uint32_t, uint8_t *, size_t, uint64_t *, uint32_t *);
    uint8_t (*replay_length)(const uint8_t *, size_t, uint32_t, uint32_t, uint64_t *, uint32_t *);
    uint8_t (*trace)(const uint8_t *, size_t, uint32_t, uint32_t, uint8_t *, size_t, uint64_t *, uint32_t *);
    uint8_t (*trace_length)(const uint8_t *, size_t, uint32_t, uint32_t, uint64_t *, uint32_t *);
    const char *(*version)(void);
    const char *(*refusal_name)(uint32_t);
    const char *(*majority_name)(uint32_t);
    uint32_t (*majority_number)(const char *);
    size_t (*command_text)(const struct board_command *, char *);
    size_t (*register_text)(const struct board_register *, char *, size_t);
} board = {
    board_counts_of_sheet,
    board_all_counts_of_sheet,
    board_counts_of_weights,
    board_counts_of_members,
    board_register_start,
    board_register_apply,
    board_register_check,
    board_register_publish,
    board_register_accepted,
    board_register_published,
    board_register_members,
    board_register_entries,
    board_register_member_at,
    board_register_entry_at,
    board_register_command_at,
    board_register_sheet,
    board_register_counts,
    board_register_all_counts,
    board_register_read,
    board_register_copy,
    board_register_undo,
    board_register_free,
    board_script,
    board_replay,
    board_replay_length,
    board_trace,
    board_trace_length,
    board_version,
    board_refusal_name,
    board_majority_name,
    board_majority_number,
    board_command_text,
    board_register_text,
};

enum { ROOM = 1000 };
static struct board_room room;
static struct board_register handle, other;
static char text[ROOM];

/* The lines of counts. */
static void show(const char *what, uint8_t refusal, const struct board_counts *it) {
    printf("%s: %s\n", what, refusal ? board.refusal_name(refusal) : "done");
    if (refusal) return;
    printf("  %" PRIu64 " and %" PRIu64 " of %" PRIu64 ", %" PRIu64 " cast, %" PRIu64 " of %" PRIu64 " win\n",
           it->quota, it->least_size, it->total, it->cast, it->omega, it->coalitions);
    for (size_t at = 0; at < it->chairs; at++)
        printf("  chair %" PRIu64 ": weight %" PRIu64 ", %" PRIu64 " swings\n", it->rows[at].chair, it->rows[at].weight,
               it->rows[at].swings);
}

static void counts(void) {
    static const uint64_t weights[] = {50, 49, 1};
    static const struct board_member rows[] = {{50, 1, 0}, {40, 2, 0}, {9, 2, 1}, {7, 0, 0}};
    struct board_counts found;
    for (uint32_t majority = 0; majority <= BOARD_MAJORITIES; majority++)
        show(board.majority_name(majority), board.counts_of_weights(weights, 3, 100, majority, &room, &found), &found);
    show("a total below the sum", board.counts_of_weights(weights, 3, 99, BOARD_HALF, &room, &found), &found);
    show("members", board.counts_of_members(rows, 4, 1U << 8, BOARD_HALF, &room, &found), &found);
}

/* Carries out a command, and prints it with its answer. */
static void apply(uint32_t kind, const char *code, uint64_t chair, uint64_t votes) {
    struct board_command command = {kind, "", chair, votes};
    uint32_t accepted = 0;
    memcpy(command.code, code, 4);
    const uint8_t refusal = board.check(&handle, &command);
    const uint8_t answer = board.apply(&handle, &command, &accepted);
    board.command_text(&command, text);
    if (answer) printf("%s: %d %s\n", text, answer, board.refusal_name(answer));
    else printf("%s: %" PRIu32 "\n", text, accepted);
    if (answer != refusal) puts("check and apply differ");
}

static void commands(void) {
    static const struct board_entry members[] = {{"AAA", 50}, {"BBB", 49}, {"CCC", 1}};
    struct board_command none = {0, "", 1, 0};
    uint32_t number = 0;
    printf("no register: %s\n", board.refusal_name(board.apply(&handle, &none, &number)));
    printf("start: %d\n", board.start(members, 3, 12, &handle));
    for (uint64_t chair = 1; chair <= 3; chair++) apply(BOARD_OPEN, "\0\0\0", chair, 0);
    apply(BOARD_MOVE, "AAA", 1, 0);
    apply(BOARD_MOVE, "BBB", 2, 0);
    apply(BOARD_VOTES, "CCC", 0, 3);
    apply(BOARD_SUSPEND, "CCC", 0, 0);
    apply(BOARD_MOVE, "CCC", 3, 0);
    apply(BOARD_RESTORE, "CCC", 0, 0);
    apply(BOARD_MOVE, "CCC", 3, 0);
    printf("publish: %d", board.publish(&handle, &number));
    printf(", %" PRIu32 "\n", number);
    apply(BOARD_ADMIT, "DDD", 0, 7);
    apply(BOARD_CLOSE, "\0\0\0", 3, 0);
    apply(BOARD_WITHDRAW, "DDD", 0, 0);
    apply(BOARD_MOVE, "CCC", 0, 0);
    apply(BOARD_CLOSE, "\0\0\0", 3, 0);
    apply(BOARD_OPEN, "\0\0\0", 33, 0);
    apply(BOARD_SUSPEND, "aaa", 0, 0);
    apply(BOARD_PUBLISH, "\0\0\0", 0, 0);
}

static void states(void) {
    struct board_counts found;
    struct board_all_counts all;
    struct board_member_row row;
    struct board_entry entry;
    struct board_command command;
    uint64_t words[BOARD_SHEET_WORDS];
    printf("%" PRIu32 " accepted, %" PRIu32 " published, %d members, %d at first\n", board.accepted(&handle),
           board.published(&handle), (int)board.members(&handle), (int)board.entries(&handle));
    printf("member 1: %d, ", board.member_at(&handle, 1, &row));
    printf("%s in %" PRIu64 " has %" PRIu64 ", suspended %" PRIu32 "\n", row.code, row.chair, row.votes, row.suspended);
    printf("entry 2: %d, ", board.entry_at(&handle, 2, &entry));
    printf("%s has %" PRIu64 "\n", entry.code, entry.votes);
    printf("command 3: %d, ", board.command_at(&handle, 3, &command));
    printf("kind %" PRIu32 ", %s to %" PRIu64 "\n", command.kind, command.code, command.chair);
    printf("command 99: %s\n", board.refusal_name(board.command_at(&handle, 99, &command)));
    show("now", board.counts(&handle, BOARD_HALF, &room, &found), &found);
    show("published", board.read(&handle, BOARD_QUORUM, &room, &found), &found);
    printf("a sheet: %d", board.sheet(&handle, words));
    for (size_t at = 0; at < BOARD_SHEET_WORDS; at++) printf(" %" PRIu64, words[at]);
    puts("");
    show("of the sheet", board.counts_of_sheet(words, BOARD_SHEET_WORDS, BOARD_SEVENTY, &room, &found), &found);
    show("by all", board.all_counts_of_sheet(words, BOARD_SHEET_WORDS, &room, &all), &all.eighty_five);
    show("by all of the register", board.all_counts(&handle, &room, &all), &all.quorum);
}

static void copies(void) {
    printf("copy of 4: %d, ", board.copy(&handle, 4, &other));
    printf("%" PRIu32 " accepted, %" PRIu32 " published\n", board.accepted(&other), board.published(&other));
    printf("undo to 8 and 5: %d, ", board.undo(&handle, 8, 5));
    printf("%" PRIu32 " accepted, %" PRIu32 " published\n", board.accepted(&handle), board.published(&handle));
    const size_t length = board.register_text(&handle, text, ROOM);
    fwrite(text, 1, length, stdout);
    board.free(&handle);
    board.free(&handle);
    board.free(&other);
    printf("freed: %" PRIu32 " accepted\n", board.accepted(&handle));
}

/* The lines of a text, which its length says before. */
static void print_text(uint8_t fault, uint32_t record, uint64_t length, uint64_t written) {
    printf("%s at record %" PRIu32 ", %s\n", board.refusal_name(fault), record, length == written ? "whole" : "cut");
    fwrite(text, 1, (size_t)written, stdout);
}

static void texts(void) {
    static const char input[] = "member,votes\nAAA,5\nscript\nopen,1\nmove,AAA,1\npublish\nread,1,half\nread,2,70\n";
    static const char schedule[] =
        "member,votes\nAAA,5\nscript\nsubmit,open,1\npublish\nwriter,35\nreader,1,37\nopen\n";
    const uint8_t *bytes = (const uint8_t *)input, *events = (const uint8_t *)schedule;
    struct board_entry members[4];
    struct board_item items[4];
    size_t people = 0, records = 0;
    uint64_t length = 0, written = 0;
    uint32_t record = 0;
    uint8_t fault = board.script(bytes, strlen(input), 1, members, 4, &people, items, 4, &records, &record);
    printf("script: %s at record %" PRIu32 ", %d member, %d records\n", board.refusal_name(fault), record, (int)people,
           (int)records);
    for (size_t at = 0; at < records; at++)
        printf("  record %" PRIu32 " of kind %" PRIu32 ": %.*s\n", items[at].number, items[at].command.kind,
               (int)strcspn(input + items[at].from, "\n"), input + items[at].from);
    board.replay_length(bytes, strlen(input), 1, BOARD_COMMANDS, &length, &record);
    fault = board.replay(bytes, strlen(input), 1, BOARD_COMMANDS, (uint8_t *)text, ROOM, &written, &record);
    print_text(fault, record, length, written);
    fault = board.replay(bytes, strlen(input), 2, BOARD_COMMANDS, (uint8_t *)text, 12, &written, &record);
    print_text(fault, record, length, written);
    puts("");
    board.trace_length(events, strlen(schedule), 1, BOARD_COMMANDS, &length, &record);
    fault = board.trace(events, strlen(schedule), 1, BOARD_COMMANDS, (uint8_t *)text, ROOM, &written, &record);
    print_text(fault, record, length, written);
}

int main(void) {
    printf("%" PRIu32 " %" PRIu32 "\n", board.majority_number("85"), board.majority_number("86"));
    if (!board.version()[0]) puts("no version");
    counts();
    commands();
    states();
    copies();
    texts();
    return 0;
}
