/* Random commands on a register.
 *
 *     commands test PROGRAM SEED MANY    compares the register with a model after each command, and its counts at times
 *                                        with what PROGRAM, `board`, prints for its entries and journal as a script
 *     commands made SEED MANY            writes a register and its commands: the limit of the journal, how many
 *                                        entries, the entries, how many commands, the commands
 *     commands answers                   reads these, and writes for each command its answer, one byte, and the number
 *                                        of accepted commands, four; then the 34 words of the sheet
 *
 * Numbers are of 64 bits unless said otherwise. Entries and commands are the structs of board.h, with 0 between their
 * parts. */
#define _POSIX_C_SOURCE 200809L
#include <unistd.h>

#include "draws.h"
#include "lines.h"

enum { MAJORITIES = 4, EVERY = 500, COPIED = 1500, LINE = 256 };

static struct board_room room;

/* A test: the register and its model, the script of the program and the lines that it must print, the number of
 * commands that are written to the script, and the number of the command that is tried. */
struct test {
    struct board_register handle;
    struct model model;
    struct draw draw;
    FILE *lines, *script;
    uint32_t written;
    uint64_t at;
};

/* Writes the register's opening as the beginning of a script. */
static void write_opening(struct test *test) {
    struct board_entry entry;
    fputs("member,votes\n", test->script);
    for (size_t at = 0; board_register_entry_at(&test->handle, at, &entry) == BOARD_DONE; at++) {
        fprintf(test->script, "%s,%" PRIu64 "\n", entry.code, entry.votes);
    }
    fputs("script\n", test->script);
}

/* Writes the commands of the journal that aren't written yet, and the lines of their answers. */
static void write_journal(struct test *test) {
    struct board_command command;
    while (board_register_command_at(&test->handle, test->written, &command) == BOARD_DONE) {
        write_command(test->script, &command);
        fprintf(test->lines, "accepted,%" PRIu32 "\n", ++test->written);
    }
    if (test->written != test->model.accepted) stop("another number of commands", test->at);
}

static void publish(struct test *test) {
    uint32_t published = UINT32_MAX;
    write_journal(test);
    if (board_register_publish(&test->handle, &published) != BOARD_DONE) stop("no publication", test->at);
    publish_model(&test->model);
    if (published != test->model.accepted) stop("another number published", test->at);
    fputs("publish\n", test->script);
    fprintf(test->lines, "published,%" PRIu32 "\n", published);
}

/* Reads at all majorities: what the program must print, and what the counts of the published words are. */
static void read_all(struct test *test) {
    struct board_counts counts, wanted;
    const uint64_t *words = test->model.published_words;
    for (uint32_t majority = 0; majority < MAJORITIES; majority++) {
        memset(&counts, 7, sizeof counts);
        if (board_register_read(&test->handle, majority, &room, &counts) != BOARD_DONE) stop("no reading", test->at);
        if (board_counts_of_sheet(words, BOARD_SHEET_WORDS, majority, &room, &wanted)) stop("no counts", test->at);
        if (memcmp(&counts, &wanted, sizeof counts) != 0) stop("another reading", test->at);
        fprintf(test->script, "read,1,%s\n", majorities[majority]);
        write_reading(test->lines, 1, board_register_published(&test->handle), majority, &counts);
    }
}

/* The counts of the register, by one majority and by all, are those of the model's words, published or not. */
static void count_all(struct test *test) {
    struct board_counts counts, wanted;
    struct board_all_counts all;
    const struct board_counts *of_all[MAJORITIES] = {&all.half, &all.seventy, &all.eighty_five, &all.quorum};
    uint64_t words[BOARD_SHEET_WORDS];
    words_of_model(&test->model, words);
    if (board_register_all_counts(&test->handle, &room, &all) != BOARD_DONE) stop("no counts by all", test->at);
    for (uint32_t majority = 0; majority < MAJORITIES; majority++) {
        if (board_register_counts(&test->handle, majority, &room, &counts) != BOARD_DONE) stop("no counts", test->at);
        if (board_counts_of_sheet(words, BOARD_SHEET_WORDS, majority, &room, &wanted)) stop("no counts", test->at);
        if (memcmp(&counts, &wanted, sizeof counts) != 0) stop("other counts", test->at);
        if (memcmp(&counts, of_all[majority], sizeof counts) != 0) stop("counts other than by all", test->at);
    }
}

/* What isn't there is refused, and nothing is written. */
static void refuse_all(struct test *test) {
    static const uint32_t numbers[] = {MAJORITIES, 255, 256, UINT32_MAX};
    struct board_register *handle = &test->handle;
    const struct model *model = &test->model;
    union {
        struct board_counts counts;
        struct board_member_row row;
        struct board_entry entry;
        struct board_command command;
    } to, before;
    memset(&to, 7, sizeof to);
    memset(&before, 7, sizeof before);
    int right = board_register_member_at(handle, model->count, &to.row) == BOARD_BAD_INDEX;
    right &= board_register_member_at(handle, SIZE_MAX, &to.row) == BOARD_BAD_INDEX;
    right &= board_register_entry_at(handle, model->entries, &to.entry) == BOARD_BAD_INDEX;
    right &= board_register_entry_at(handle, SIZE_MAX, &to.entry) == BOARD_BAD_INDEX;
    right &= board_register_command_at(handle, model->accepted, &to.command) == BOARD_BAD_INDEX;
    right &= board_register_command_at(handle, SIZE_MAX, &to.command) == BOARD_BAD_INDEX;
    for (size_t at = 0; at < sizeof numbers / sizeof numbers[0]; at++) {
        right &= board_register_counts(handle, numbers[at], &room, &to.counts) == BOARD_BAD_RECORD;
        right &= board_register_read(handle, numbers[at], &room, &to.counts) == BOARD_BAD_RECORD;
    }
    if (!right || memcmp(&to, &before, sizeof to) != 0) stop("a refusal of nothing there", test->at);
}

/* Applies a command, and compares the answers and the register with the model. */
static void apply(struct test *test, const struct board_command *command) {
    struct model *model = &test->model;
    struct board_register before = test->handle;
    struct board_command given = *command;
    uint32_t accepted = UINT32_MAX;
    uint8_t wanted = answer_of(model, command);
    if (board_register_check(&test->handle, command) != wanted) stop("another check", test->at);
    compare(&test->handle, model, test->at);
    if (board_register_apply(&test->handle, command, &accepted) != wanted) stop("another answer", test->at);
    if (wanted == BOARD_DONE) obey(model, command);
    if (accepted != (wanted == BOARD_DONE ? model->accepted : UINT32_MAX)) stop("another number accepted", test->at);
    if (test->handle.at != before.at || test->handle.state != before.state) stop("the handle changed", test->at);
    if (!same_command(&given, command)) stop("the command changed", test->at);
    compare(&test->handle, model, test->at);
}

/* Compares the whole register, counts it, and publishes it. */
static void look_closely(struct test *test, uint32_t from) {
    compare_history(&test->handle, &test->model, from, test->at);
    refuse_all(test);
    write_journal(test);
    read_all(test);
    count_all(test);
    publish(test);
    read_all(test);
    count_all(test);
    compare(&test->handle, &test->model, test->at);
}

/* A copy of the register is taken back at random, again and again, and is then that of its first commands. */
static void take_copy_back(struct test *test, struct draw *draw) {
    struct board_register copy = {0};
    struct board_counts counts, wanted;
    struct model model, shorter;
    start_again(&model, &test->model, UINT32_MAX, UINT32_MAX);
    if (board_register_copy(&test->handle, UINT32_MAX, &copy) != BOARD_DONE) stop("no copy", test->at);
    for (int time = 0; time < 3; time++) {
        uint32_t accepted = (uint32_t)lot(draw, model.accepted + 2);
        uint32_t published = (uint32_t)lot(draw, model.published + 2);
        if (board_register_undo(&copy, accepted, published) != BOARD_DONE) stop("no undo", test->at);
        start_again(&shorter, &model, accepted, published);
        end_model(&model);
        model = shorter;
        compare(&copy, &model, test->at);
        const uint64_t *words = model.published_words;
        if (board_register_read(&copy, BOARD_HALF, &room, &counts) != BOARD_DONE) stop("no reading", test->at);
        if (board_counts_of_sheet(words, BOARD_SHEET_WORDS, BOARD_HALF, &room, &wanted)) stop("no counts", test->at);
        if (memcmp(&counts, &wanted, sizeof counts) != 0) stop("another reading after an undo", test->at);
    }
    compare_history(&copy, &model, 0, test->at);
    compare(&test->handle, &test->model, test->at);
    board_register_free(&copy);
    if (board_register_undo(&copy, 0, 0) != BOARD_NO_REGISTER) stop("an undo of no register", test->at);
    end_model(&model);
}

/* The copy of the register at each length is that of its first commands carried out again. */
static void copy_all(struct test *test) {
    struct board_register copy = {0}, again = {0};
    struct model model;
    const struct model *whole = &test->model;
    uint32_t most = whole->accepted < COPIED ? whole->accepted : COPIED, accepted;
    start_model(&model, whole->opening, whole->entries, whole->limit);
    if (board_register_start(whole->opening, whole->entries, whole->limit, &again)) stop("no start", test->at);
    for (uint32_t at = 0; at <= most; at++) {
        if (board_register_copy(&test->handle, at, &copy) != BOARD_DONE) stop("no copy", at);
        model.published = whole->published < at ? whole->published : at;
        compare(&copy, &model, at);
        if (at % EVERY == 0) compare_history(&copy, &model, 0, at);
        /* What is done to the copy isn't done to the register. */
        if (at == most) break;
        if (board_register_apply(&copy, &whole->journal[at], &accepted) || accepted != at + 1) stop("a copy", at);
        if (board_register_apply(&again, &whole->journal[at], &accepted) || accepted != at + 1) stop("again", at);
        obey(&model, &whole->journal[at]);
        model.published = whole->published < at ? whole->published : at;
        compare(&copy, &model, at);
        model.published = 0;
        compare(&again, &model, at);
    }
    if (board_register_copy(&test->handle, UINT32_MAX, &copy) != BOARD_DONE) stop("no copy", test->at);
    compare(&copy, whole, test->at);
    compare_history(&copy, whole, 0, test->at);
    compare(&test->handle, whole, test->at);
    board_register_free(&copy);
    board_register_free(&again);
    end_model(&model);
}

/* The program prints the lines for the script. */
static void compare_program(const char *program, FILE *lines, const char *script) {
    char command[4 * LINE], line[LINE], wanted[LINE];
    snprintf(command, sizeof command, "%s replay < %s", program, script);
    FILE *from = popen(command, "r");
    uint64_t at = 1;
    rewind(lines);
    for (; fgets(wanted, sizeof wanted, lines); at++) {
        if (!fgets(line, sizeof line, from)) stop("the program ends early, at a line", at);
        if (strcmp(line, wanted) == 0) continue;
        printf("%sand not\n%s", line, wanted);
        stop("the program prints another line", at);
    }
    if (fgetc(from) != EOF || pclose(from) != 0) stop("the program goes on, or ends in a fault", at);
}

static void start(struct test *test, uint64_t seed, uint32_t many) {
    static struct board_entry entries[BOARD_MEMBERS];
    test->draw = draw_of(seed, many);
    draw_entries(&test->draw, entries);
    uint32_t journal = test->draw.journal;
    if (board_register_start(entries, test->draw.entries, journal, &test->handle)) stop("no start", 0);
    start_model(&test->model, entries, test->draw.entries, journal);
    compare(&test->handle, &test->model, 0);
}

static void print_totals(const struct test *test, const uint32_t *answers) {
    printf("%" PRIu32 " accepted, %zu members; refused:", test->model.accepted, test->model.count);
    for (int number = 1; number <= BOARD_BAD_INDEX; number++)
        if (answers[number]) printf(" %s %" PRIu32, board_refusal_name((uint32_t)number), answers[number]);
    printf("\n");
}

static int test_all(const char *program, uint64_t seed, uint32_t many) {
    static struct test test;
    /* Publications are drawn apart, so that the commands are those that `made` writes. */
    struct draw publications = draw_of(~seed, many);
    uint32_t answers[256] = {0}, compared = 0;
    char name[] = "/tmp/commandsXXXXXX";
    test.script = fdopen(mkstemp(name), "w");
    test.lines = tmpfile();
    start(&test, seed, many);
    write_opening(&test);
    for (test.at = 0; test.at < many; test.at++) {
        struct board_command command = draw_command(&test.draw);
        answers[answer_of(&test.model, &command)]++;
        apply(&test, &command);
        if (lot(&publications, EVERY / 4) == 0) publish(&test);
        if (test.at % EVERY != EVERY - 1 && test.at + 1 != many) continue;
        look_closely(&test, compared);
        take_copy_back(&test, &publications);
        compared = test.model.accepted;
    }
    compare_history(&test.handle, &test.model, 0, many);
    copy_all(&test);
    fclose(test.script);
    compare_program(program, test.lines, name);
    print_totals(&test, answers);
    board_register_free(&test.handle);
    end_model(&test.model);
    return remove(name);
}

static void write_number(uint64_t number) { fwrite(&number, sizeof number, 1, stdout); }

static int make(uint64_t seed, uint32_t many) {
    static struct board_entry entries[BOARD_MEMBERS];
    struct draw draw = draw_of(seed, many);
    draw_entries(&draw, entries);
    write_number(draw.journal);
    write_number(draw.entries);
    fwrite(entries, sizeof *entries, draw.entries, stdout);
    write_number(many);
    for (uint32_t at = 0; at < many; at++) {
        struct board_command command = draw_command(&draw);
        fwrite(&command, sizeof command, 1, stdout);
    }
    return 0;
}

static void read_in(void *to, size_t bytes) {
    if (bytes && fread(to, bytes, 1, stdin) != 1) stop("the input ends early", bytes);
}

static int answer_all(void) {
    static struct board_entry entries[BOARD_MEMBERS];
    struct board_register handle = {0};
    struct board_command command;
    uint64_t given[2], many, words[BOARD_SHEET_WORDS];
    uint32_t accepted = 0;
    read_in(given, sizeof given);
    read_in(entries, given[1] * sizeof *entries);
    read_in(&many, sizeof many);
    if (board_register_start(entries, given[1], (uint32_t)given[0], &handle) != BOARD_DONE) return 1;
    for (uint64_t at = 0; at < many; at++) {
        read_in(&command, sizeof command);
        putchar(board_register_apply(&handle, &command, &accepted));
        fwrite(&accepted, sizeof accepted, 1, stdout);
    }
    if (board_register_sheet(&handle, words) != BOARD_DONE) return 1;
    fwrite(words, sizeof words, 1, stdout);
    board_register_free(&handle);
    return 0;
}

int main(int many, char **words) {
    if (many == 5 && strcmp(words[1], "test") == 0) {
        return test_all(words[2], strtoull(words[3], NULL, 10), (uint32_t)strtoul(words[4], NULL, 10));
    }
    if (many == 4 && strcmp(words[1], "made") == 0) {
        return make(strtoull(words[2], NULL, 10), (uint32_t)strtoul(words[3], NULL, 10));
    }
    return many == 2 && strcmp(words[1], "answers") == 0 ? answer_all() : 2;
}
