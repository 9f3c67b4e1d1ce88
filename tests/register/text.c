/* A register as text: random registers, written by board_register_text, are what their members, commands and
 * publications are written as here, and read by board_script they are the same registers again.
 *
 *     text SEED MANY */
#define _POSIX_C_SOURCE 200809L
#include "draws.h"

enum { CUTS = 40, BEHIND = 7, SPARE = 64 };

/* A text in memory of its own. */
struct writing {
    char *bytes;
    size_t length;
};

/* Writes a model as a script. */
static struct writing written(const struct model *model) {
    struct writing made = {NULL, 0};
    FILE *to = open_memstream(&made.bytes, &made.length);
    if (!to) stop("there is no memory", 0);
    fputs("member,votes\n", to);
    for (size_t at = 0; at < model->entries; at++) {
        fprintf(to, "%s,%" PRIu64 "\n", model->opening[at].code, model->opening[at].votes);
    }
    fputs("script\n", to);
    for (uint32_t at = 0; at < model->accepted; at++) {
        write_command(to, &model->journal[at]);
        if (at + 1 == model->published) fputs("publish\n", to);
    }
    fclose(to);
    return made;
}

/* The register is written as the text, and so is its beginning where there is less room; nothing behind it changes. */
static void compare_text(const struct board_register *handle, const struct writing *wanted, struct draw *draw) {
    const size_t len = wanted->length;
    unsigned char *found = some_memory(len + SPARE);
    if (board_register_text(handle, NULL, 0) != len) stop("another length", len);
    for (uint32_t cut = 0; cut < CUTS; cut++) {
        const size_t room = cut ? (size_t)lot(draw, len + SPARE / 2) : len + SPARE / 2;
        const size_t fits = room < len ? room : len;
        memset(found, BEHIND, len + SPARE);
        if (board_register_text(handle, (char *)found, room) != len) stop("another length with room", room);
        if (memcmp(found, wanted->bytes, fits)) stop("another text with room", room);
        for (size_t at = fits; at < len + SPARE; at++)
            if (found[at] != BEHIND) stop("more than the text was written", at);
    }
    free(found);
}

/* A register of these records, or of none if a record is refused. */
static void follow(struct board_register *handle, const struct board_item *items, size_t many) {
    uint32_t number;
    for (size_t at = 0; at < many; at++) {
        const struct board_command *command = &items[at].command;
        uint8_t refused = command->kind == BOARD_PUBLISH ? board_register_publish(handle, &number)
                                                         : board_register_apply(handle, command, &number);
        if (refused) stop("a record is refused", at);
    }
}

/* The text is read as the register of the model. */
static void read_back(const struct writing *text, const struct model *model) {
    struct board_register again = {0};
    struct board_entry entries[BOARD_MEMBERS];
    const uint8_t *bytes = (const uint8_t *)text->bytes;
    size_t members, many;
    uint32_t record;
    struct board_item *items = some_memory((text->length / 2) * sizeof *items);
    if (board_script(bytes, text->length, 1, entries, BOARD_MEMBERS, &members, items, text->length / 2, &many, &record))
        stop("the text is no script", record);
    if (board_register_start(entries, members, model->limit, &again)) stop("no register", members);
    follow(&again, items, many);
    compare(&again, model, many);
    compare_history(&again, model, 0, many);
    board_register_free(&again);
    free(items);
}

/* A command is written as a record, with a 0 and no more; one of no kind as an empty one. */
static void compare_record(const struct board_command *command, uint64_t at) {
    char found[BOARD_COMMAND_TEXT + 1], wanted[2 * BOARD_COMMAND_TEXT] = "\n";
    FILE *to = fmemopen(wanted, sizeof wanted, "w");
    if (!to) stop("there is no memory", at);
    if (command->kind <= BOARD_WITHDRAW) write_command(to, command);
    fclose(to);
    memset(found, BEHIND, sizeof found);
    const size_t length = board_command_text(command, found);
    if (strlen(found) != length || found[BOARD_COMMAND_TEXT] != BEHIND) stop("another length of a record", at);
    if (strncmp(found, wanted, length) || wanted[length] != '\n') stop("another record", at);
}

/* The names and numbers of majorities. */
static void compare_names(void) {
    static const char *const names[] = {"half", "70", "85", "quorum"}, *const others[] = {"", "hal", "half ", "7",
                                                                                          "Half"};
    for (uint32_t at = 0; at < BOARD_MAJORITIES; at++) {
        if (strcmp(board_majority_name(at), names[at]) || board_majority_number(names[at]) != at) stop("a name", at);
    }
    for (size_t at = 0; at < sizeof others / sizeof *others; at++)
        if (board_majority_number(others[at]) != BOARD_MAJORITIES) stop("a majority of no name", at);
    if (*board_majority_name(BOARD_MAJORITIES) || *board_majority_name(UINT32_MAX)) stop("a name of none", 4);
}

static void try_command(struct board_register *handle, struct model *model, struct draw *draw, uint64_t at) {
    const struct board_command command = draw_command(draw);
    const uint8_t wanted = answer_of(model, &command);
    uint32_t accepted, published;
    if (is_code(command.code)) compare_record(&command, at);
    if (board_register_apply(handle, &command, &accepted) != wanted) stop("another answer", at);
    if (wanted == BOARD_DONE) obey(model, &command);
    if (lot(draw, 64)) return;
    board_register_publish(handle, &published);
    publish_model(model);
}

int main(int count, char **words) {
    if (count != 3) return 99;
    const uint32_t many = (uint32_t)strtoul(words[2], NULL, 10);
    struct draw draw = draw_of(strtoull(words[1], NULL, 10), many);
    struct board_register handle = {0};
    struct board_entry entries[BOARD_MEMBERS];
    static struct model model;
    compare_names();
    if (board_register_text(&handle, NULL, 0)) stop("a text of no register", 0);
    draw_entries(&draw, entries);
    start_model(&model, entries, draw.entries, draw.journal);
    if (board_register_start(entries, draw.entries, draw.journal, &handle)) stop("no start", 0);
    for (uint64_t at = 0; at < many; at++) try_command(&handle, &model, &draw, at);
    struct writing text = written(&model);
    compare_text(&handle, &text, &draw);
    read_back(&text, &model);
    printf("%" PRIu32 " commands, %zu bytes\n", model.accepted, text.length);
    board_register_free(&handle);
    free(text.bytes);
    end_model(&model);
    return 0;
}
