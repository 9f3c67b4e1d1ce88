/* Texts: the version, the names of refusals and majorities, and commands and registers as records of a script. Nothing
 * here is proved. tests/release compares the names with those of docs/FORMATS.md, and tests/register what a register is
 * written as with what it was made from. The release defines BOARD_VERSION. */
#include "board.h"
#include <string.h>

/* By their numbers, from 0 on. */
static const char *const refusals[] = {
    "",
    "ChairOpen",
    "ChairNotOpen",
    "ChairHasMembers",
    "UnknownMember",
    "MemberSuspended",
    "AlreadyThere",
    "AlreadySuspended",
    "NotSuspended",
    "JournalFull",
    "OutOfMemory",
    "DuplicateMember",
    "TooManyMembers",
    "BadLimit",
    "BadChair",
    "BadMember",
    "VotesTooLarge",
    "BadRecord",
    "NoEntry",
    "ReadFault",
    "WriteFault",
    "BadHeader",
    "BadReader",
    "Busy",
    "Mismatch",
    "MemberExists",
    "MemberSeated",
    "GateClosed",
    "NoScript",
    "TooLong",
    "BadJournal",
    "BadCuts",
    "BadSheet",
    "TooManyChairs",
    "NoRegister",
    "BadIndex",
};
static const char *const majorities[] = {"half", "70", "85", "quorum"};
typedef char each_majority_has_a_word[sizeof majorities / sizeof *majorities == BOARD_MAJORITIES ? 1 : -1];
static const char *const kinds[] = {"open", "close", "move", "votes", "suspend", "restore", "admit", "withdraw"};

const char *board_version(void) { return BOARD_VERSION; }

const char *board_refusal_name(uint32_t number) {
    return number < sizeof refusals / sizeof *refusals ? refusals[number] : "";
}

const char *board_majority_name(uint32_t majority) { return majority < BOARD_MAJORITIES ? majorities[majority] : ""; }

uint32_t board_majority_number(const char *name) {
    uint32_t majority = 0;
    while (majority < BOARD_MAJORITIES && strcmp(name, majorities[majority])) majority++;
    return majority;
}

/* Writes a word, and returns where its end is, which has a 0. */
static char *put(char *to, const char *word) {
    size_t len = strlen(word);
    memcpy(to, word, len + 1);
    return to + len;
}

static char *put_number(char *to, const char *before, uint64_t number) {
    char digits[21], *first = digits + sizeof digits - 1;
    *first = 0;
    do *--first = (char)('0' + (int)(number % 10));
    while (number /= 10);
    return put(put(to, before), first);
}

static char *put_code(char *to, const char *code) {
    char letters[] = {code[0], code[1], code[2], 0};
    return put(to, letters);
}

size_t board_command_text(const struct board_command *command, char *text) {
    const uint32_t kind = command->kind;
    char *to = text;
    *to = 0;
    if (kind > BOARD_WITHDRAW) return 0;
    to = put(to, kinds[kind]);
    if (kind >= BOARD_MOVE) to = put_code(put(to, ","), command->code);
    if (kind == BOARD_MOVE && !command->chair) to = put(to, ",none");
    else if (kind <= BOARD_MOVE) to = put_number(to, ",", command->chair);
    if (kind == BOARD_VOTES || kind == BOARD_ADMIT) to = put_number(to, ",", command->votes);
    return (size_t)(to - text);
}

/* A text, of which what fits in `room` bytes is written. */
struct text {
    char *bytes;
    size_t room, length;
};

static void add(struct text *text, const char *record) {
    for (; *record; record++, text->length++)
        if (text->length < text->room) text->bytes[text->length] = *record;
}

size_t board_register_text(const struct board_register *handle, char *out, size_t out_len) {
    const uint32_t published = board_register_published(handle);
    struct text text = {out, out_len, 0};
    struct board_entry entry;
    struct board_command command;
    char record[BOARD_COMMAND_TEXT];
    if (!handle->state) return 0;
    add(&text, "member,votes\n");
    for (size_t at = 0; !board_register_entry_at(handle, at, &entry); at++) {
        put(put_number(put_code(record, entry.code), ",", entry.votes), "\n");
        add(&text, record);
    }
    add(&text, "script\n");
    for (size_t at = 0; !board_register_command_at(handle, at, &command); at++) {
        put(record + board_command_text(&command, record), "\n");
        add(&text, record);
        if (at + 1 == published) add(&text, "publish\n");
    }
    return text.length;
}
