/* A model of the register in plain C, written from docs/FORMATS.md, and a comparison of a register with it. */
#ifndef MODEL_H
#define MODEL_H

#include <inttypes.h>
#include <stdio.h>
#include <stdlib.h>
#include <string.h>

#include "board.h"

static const uint64_t MOST_VOTES = (uint64_t)1 << 40;

/* A register as it should be. `published_words` are the sheet that was published last. */
struct model {
    struct board_entry opening[BOARD_MEMBERS];
    struct board_member_row members[BOARD_MEMBERS];
    struct board_command *journal;
    uint64_t published_words[BOARD_SHEET_WORDS];
    size_t entries, count;
    uint32_t limit, accepted, published;
    int is_open[BOARD_CHAIRS + 1];
};

/* Ends the program with a reason. */
static void stop(const char *why, uint64_t at) {
    printf("%s, at %llu\n", why, (unsigned long long)at);
    exit(1);
}

static void *some_memory(size_t bytes) {
    void *block = malloc(bytes ? bytes : 1);
    if (!block) stop("there is no memory", bytes);
    return block;
}

static void words_of_model(const struct model *model, uint64_t *words) {
    memset(words, 0, BOARD_SHEET_WORDS * sizeof *words);
    for (size_t chair = 1; chair <= BOARD_CHAIRS; chair++) words[chair - 1] = model->is_open[chair] ? 1 : 0;
    for (size_t at = 0; at < model->count; at++) {
        const struct board_member_row *member = &model->members[at];
        uint64_t votes = member->suspended ? 0 : member->votes;
        if (member->chair) words[member->chair - 1] += votes;
        words[BOARD_CHAIRS] += votes;
    }
    words[BOARD_CHAIRS + 1] = model->accepted;
}

static void publish_model(struct model *model) {
    model->published = model->accepted;
    words_of_model(model, model->published_words);
}

/* A model of these members, whose journal has room for `limit` commands. */
static void start_model(struct model *model, const struct board_entry *entries, size_t len, uint32_t limit) {
    memset(model, 0, sizeof *model);
    for (size_t at = 0; at < len; at++) {
        model->opening[at] = entries[at];
        memcpy(model->members[at].code, entries[at].code, sizeof entries[at].code);
        model->members[at].votes = entries[at].votes;
    }
    model->journal = some_memory(limit * sizeof *model->journal);
    model->entries = model->count = len;
    model->limit = limit;
    publish_model(model);
}

static void end_model(struct model *model) { free(model->journal); }

static int has_code(const struct board_command *command) { return command->kind >= BOARD_MOVE; }

static int has_chair(const struct board_command *command) { return command->kind <= BOARD_MOVE; }

static int has_votes(const struct board_command *command) {
    return command->kind == BOARD_VOTES || command->kind == BOARD_ADMIT;
}

/* Writes a command as a record of a script. */
static inline void write_command(FILE *to, const struct board_command *command) {
    static const char *const words[] = {"open", "close", "move", "votes", "suspend", "restore", "admit", "withdraw"};
    fputs(words[command->kind], to);
    if (has_code(command)) fprintf(to, ",%s", command->code);
    if (command->kind == BOARD_MOVE && command->chair == 0) fputs(",none", to);
    else if (has_chair(command)) fprintf(to, ",%" PRIu64, command->chair);
    if (has_votes(command)) fprintf(to, ",%" PRIu64, command->votes);
    fputc('\n', to);
}

static int is_capital(char letter) { return letter >= 'A' && letter <= 'Z'; }

static int is_code(const char *code) {
    return is_capital(code[0]) && is_capital(code[1]) && is_capital(code[2]) && code[3] == 0;
}

/* The refusal of a command's parts, if one is bad. */
static uint8_t bad_part(const struct board_command *command) {
    uint64_t least = command->kind == BOARD_MOVE ? 0 : 1;
    if (command->kind > BOARD_WITHDRAW) return BOARD_BAD_RECORD;
    if (has_code(command) && !is_code(command->code)) return BOARD_BAD_MEMBER;
    if (has_chair(command) && (command->chair < least || command->chair > BOARD_CHAIRS)) return BOARD_BAD_CHAIR;
    if (has_votes(command) && command->votes > MOST_VOTES) return BOARD_VOTES_TOO_LARGE;
    return BOARD_DONE;
}

/* The place of a member, or the number of members. */
static size_t place_of(const struct model *model, const char *code) {
    size_t at = 0;
    while (at < model->count && memcmp(model->members[at].code, code, sizeof model->members[at].code) != 0) at++;
    return at;
}

static int has_members(const struct model *model, uint64_t chair) {
    for (size_t at = 0; at < model->count; at++)
        if (model->members[at].chair == chair) return 1;
    return 0;
}

/* The refusal of a move, if there is one. */
static uint8_t why_not_moved(const struct model *model, const struct board_member_row *member, uint64_t chair) {
    if (member->suspended) return BOARD_MEMBER_SUSPENDED;
    if (chair && !model->is_open[chair]) return BOARD_CHAIR_NOT_OPEN;
    return member->chair == chair ? BOARD_ALREADY_THERE : BOARD_DONE;
}

/* The refusal of a command with sound parts, other than that of a full journal. */
static uint8_t why_refused(const struct model *model, const struct board_command *command) {
    size_t at = has_code(command) ? place_of(model, command->code) : 0;
    const struct board_member_row *member = &model->members[at];
    switch (command->kind) {
    case BOARD_OPEN: return model->is_open[command->chair] ? BOARD_CHAIR_OPEN : BOARD_DONE;
    case BOARD_CLOSE:
        if (!model->is_open[command->chair]) return BOARD_CHAIR_NOT_OPEN;
        return has_members(model, command->chair) ? BOARD_CHAIR_HAS_MEMBERS : BOARD_DONE;
    case BOARD_ADMIT:
        if (at < model->count) return BOARD_MEMBER_EXISTS;
        return model->count == BOARD_MEMBERS ? BOARD_TOO_MANY_MEMBERS : BOARD_DONE;
    default: break;
    }
    if (at == model->count) return BOARD_UNKNOWN_MEMBER;
    switch (command->kind) {
    case BOARD_MOVE: return why_not_moved(model, member, command->chair);
    case BOARD_SUSPEND: return member->suspended ? BOARD_ALREADY_SUSPENDED : BOARD_DONE;
    case BOARD_RESTORE: return member->suspended ? BOARD_DONE : BOARD_NOT_SUSPENDED;
    case BOARD_WITHDRAW: return member->chair ? BOARD_MEMBER_SEATED : BOARD_DONE;
    default: return BOARD_DONE;
    }
}

/* The number that a command is answered with. */
static uint8_t answer_of(const struct model *model, const struct board_command *command) {
    uint8_t refusal = bad_part(command);
    if (refusal == BOARD_DONE) refusal = why_refused(model, command);
    return refusal == BOARD_DONE && model->accepted == model->limit ? BOARD_JOURNAL_FULL : refusal;
}

/* The command with 0 in the parts that its kind doesn't have. */
static struct board_command plain(const struct board_command *command) {
    struct board_command found = {.kind = command->kind};
    if (has_code(command)) memcpy(found.code, command->code, sizeof found.code);
    if (has_chair(command)) found.chair = command->chair;
    if (has_votes(command)) found.votes = command->votes;
    return found;
}

/* Carries out a command that isn't refused. */
static void obey(struct model *model, const struct board_command *command) {
    size_t at = has_code(command) ? place_of(model, command->code) : 0;
    struct board_member_row *member = &model->members[at];
    model->journal[model->accepted++] = plain(command);
    switch (command->kind) {
    case BOARD_OPEN: model->is_open[command->chair] = 1; break;
    case BOARD_CLOSE: model->is_open[command->chair] = 0; break;
    case BOARD_MOVE: member->chair = command->chair; break;
    case BOARD_VOTES: member->votes = command->votes; break;
    case BOARD_SUSPEND: member->suspended = 1; break;
    case BOARD_RESTORE: member->suspended = 0; break;
    case BOARD_ADMIT:
        memset(member, 0, sizeof *member);
        memcpy(member->code, command->code, sizeof member->code);
        member->votes = command->votes;
        model->count++;
        break;
    default: memmove(member, member + 1, (--model->count - at) * sizeof *member);
    }
}

/* Starts a model as another was after its first commands. Those published there are published here, but no more than
 * the first `published`. */
static inline void start_again(struct model *again, const struct model *model, uint32_t accepted, uint32_t published) {
    uint32_t front = published < model->published ? published : model->published;
    start_model(again, model->opening, model->entries, model->limit);
    for (uint32_t at = 0; at < accepted && at < model->accepted; at++) {
        obey(again, &model->journal[at]);
        if (again->accepted <= front) publish_model(again);
    }
}

static int same_row(const struct board_member_row *row, const struct board_member_row *other) {
    return memcmp(row->code, other->code, sizeof row->code) == 0 && row->suspended == other->suspended &&
           row->chair == other->chair && row->votes == other->votes;
}

static int same_entry(const struct board_entry *entry, const struct board_entry *other) {
    return memcmp(entry->code, other->code, sizeof entry->code) == 0 && entry->votes == other->votes;
}

static int same_command(const struct board_command *command, const struct board_command *other) {
    return command->kind == other->kind && memcmp(command->code, other->code, sizeof command->code) == 0 &&
           command->chair == other->chair && command->votes == other->votes;
}

/* Compares the numbers, the sheet and the members of a register with the model's. */
static void compare(struct board_register *handle, const struct model *model, uint64_t at) {
    uint64_t words[BOARD_SHEET_WORDS], wanted[BOARD_SHEET_WORDS];
    struct board_member_row row;
    if (board_register_accepted(handle) != model->accepted) stop("another number of accepted commands", at);
    if (board_register_published(handle) != model->published) stop("another number of published commands", at);
    if (board_register_members(handle) != model->count) stop("another number of members", at);
    if (board_register_entries(handle) != model->entries) stop("another number of entries", at);
    words_of_model(model, wanted);
    if (board_register_sheet(handle, words) != BOARD_DONE) stop("no sheet", at);
    if (memcmp(words, wanted, sizeof words) != 0) stop("another sheet", at);
    for (size_t place = 0; place < model->count; place++) {
        if (board_register_member_at(handle, place, &row) != BOARD_DONE) stop("a member is missing", at);
        if (!same_row(&row, &model->members[place])) stop("another member", at);
    }
}

/* Compares the entries of a register, and its commands from one on, with the model's. */
static void compare_history(struct board_register *handle, const struct model *model, uint32_t from, uint64_t at) {
    struct board_entry entry;
    struct board_command command;
    for (size_t place = 0; place < model->entries; place++) {
        if (board_register_entry_at(handle, place, &entry) != BOARD_DONE) stop("an entry is missing", at);
        if (!same_entry(&entry, &model->opening[place])) stop("another entry", at);
    }
    for (size_t place = from; place < model->accepted; place++) {
        if (board_register_command_at(handle, place, &command) != BOARD_DONE) stop("a command is missing", at);
        if (!same_command(&command, &model->journal[place])) stop("another command", at);
    }
}

#endif
