#ifdef BOARD_MAIN
/* The program board, with its commands replay and trace. The command line is read here, in C; it has no serve. */
#include <signal.h>
#include <stdio.h>
#ifdef _WIN32
#include <fcntl.h>
#include <io.h>
#endif

/* The exit status, and the faults of the devices, as the program numbers them. */
enum { WELL = 0, IN_FAULT = 1, REFUSED = 2, READ_FAULT = 19 };

static const char usage[] =
    "Usage: board replay|trace [--readers N] [--journal N]\n"
    "\n"
    "  replay  Carries out the records on standard input one by one, and prints each answer\n"
    "  trace   Runs the two-copy machine through the schedule on standard input, and prints its output\n"
    "\n"
    "  --readers N  The number of readers, from 1 to 4 [default: 1]\n"
    "  --journal N  The most commands that are accepted, from 1 to 1000000 [default: 1000000]\n"
    "\n"
    "The input is read to its end before the first answer is printed: a program that wants each answer at once calls\n"
    "the library (docs/EMBEDDING.md). This program was compiled from board.c, and has no serve, which needs threads.\n";

/* An option: its number is from 1 to `most`, and 0 until it is given. */
struct option {
    const char *name;
    uint32_t most, number;
};

/* Writes a word to standard error. No terminal obeys it: a byte of a control character is written as its number. */
static void complain(const char *word) {
    for (const unsigned char *at = (const unsigned char *)word; *at; at++) {
        const int is_control = *at < 32 || *at == 127 || (*at == 0xC2 && at[1] < 0xA0);
        if (is_control) fprintf(stderr, "\\x%02x", *at);
        else fputc(*at, stderr);
    }
}

static int refuse(const char *why, const char *word) {
    fprintf(stderr, "error: %s '", why);
    complain(word);
    fprintf(stderr, "'\n\n%s", usage);
    return REFUSED;
}

/* The number from 1 to `most` that a word gives, or 0. */
static uint32_t number_in(const char *word, uint32_t most) {
    uint32_t number = 0;
    if (*word == '+') word++;
    do {
        if (*word < '0' || *word > '9') return 0;
        number = 10 * number + (uint32_t)(*word - '0');
    } while (*++word && number <= most);
    return number <= most ? number : 0;
}

/* Sets an option to a value. */
static int set(struct option *option, const char *value) {
    if (option->number) return refuse("this option is given twice:", option->name);
    option->number = number_in(value, option->most);
    if (option->number) return WELL;
    fputs("error: invalid value '", stderr);
    complain(value);
    fprintf(stderr, "' for '%s <N>': ", option->name);
    complain(value);
    fprintf(stderr, " is not in 1..=%lu\n\n", (unsigned long)option->most);
    fputs("For more information, try '--help'.\n", stderr);
    return REFUSED;
}

/* Whether a word is an option, alone or with '=' and its value. */
static int is_option(const char *word, const struct option *option) {
    size_t length = strlen(option->name);
    return !strncmp(word, option->name, length) && (!word[length] || word[length] == '=');
}

/* Reads the words after a command, up to a first one that is no option. */
static int read_options(char ***words, struct option *readers, struct option *journal) {
    for (; **words; ++*words) {
        struct option *option = is_option(**words, readers) ? readers : is_option(**words, journal) ? journal : NULL;
        const char *value = option ? **words + strlen(option->name) : NULL;
        if (!option) return WELL;
        if (!*value && (!*++*words || ***words == '-')) return refuse("a value is required for", option->name);
        if (set(option, *value ? value + 1 : **words)) return REFUSED;
    }
    return WELL;
}

/* An input, and the limits of its run. */
struct input {
    uint8_t *bytes;
    size_t len;
    uint32_t readers, journal;
};

/* Writes the line of a fault. A trap has none, and nor has a fault of writing. */
static void say(uint32_t record, uint8_t fault) {
    if (fault != BOARD_TRAPPED && fault != BOARD_WRITE_FAULT)
        printf("fault,%lu,%s\n", (unsigned long)record, board_refusal_name(fault));
}

/* Replay: the input is read a piece at a time, and each record is carried out and answered before the next, so that the
 * memory for it doesn't grow with the text. */

/* What a piece after the first begins with, in the place of the last bytes that were read. */
static const char opening[] = "member,votes\nscript\n";
enum { OPENING_BYTES = sizeof opening - 1, OPENING_RECORDS = 2 };

/* The bytes and the records of a piece, which a test makes small. */
#ifndef PIECE_BYTES
#define PIECE_BYTES 32768
#define PIECE_ITEMS 4096
#endif

/* A piece of an input: its records, and the fault after them, if one ends the run there. */
struct piece {
    size_t at;      /* where it begins in the input */
    uint32_t above; /* what is added to the number of a record in it, for that in the input */
    size_t members, items;
    uint8_t fault;
    uint32_t record;
    int is_last;
};

static struct board_entry members[BOARD_MEMBERS];
static struct board_item items[PIECE_ITEMS];

/* Reads the first bytes of a piece, or all that are left. If more are left, the last record may be cut: then it is a
 * fault, or ends where the bytes do, and isn't taken. */
static void read_bytes(struct piece *piece, const struct input *in, size_t size) {
    size_t found = 0;
    piece->record = 0;
    piece->fault = board_script(in->bytes + piece->at, size, in->readers, members, BOARD_MEMBERS, &piece->members,
                                items, PIECE_ITEMS, &found, &piece->record);
    piece->items = found < PIECE_ITEMS ? found : PIECE_ITEMS;
    piece->is_last = piece->fault == BOARD_OUT_OF_MEMORY || piece->fault == BOARD_TRAPPED ||
                     (size == in->len - piece->at && found <= PIECE_ITEMS);
    if (piece->is_last || found > PIECE_ITEMS) return;
    if (found > 0 && piece->fault == BOARD_DONE && items[found - 1].to == size) piece->items--;
}

/* Reads a piece: as many bytes as it takes to find a record, which the first one does after its members. */
static void read_piece(struct piece *piece, const struct input *in) {
    size_t rest = in->len - piece->at;
    for (size_t size = PIECE_BYTES;; size *= 2) {
        read_bytes(piece, in, size < rest ? size : rest);
        if (piece->is_last) return;
        if (piece->items > 0) break;
    }
    piece->fault = BOARD_DONE;
}

/* Goes on to the piece after the records of this one. */
static void go_on(struct piece *piece, const struct input *in) {
    const struct board_item *last = &items[piece->items - 1];
    piece->above += last->number - OPENING_RECORDS;
    piece->at += last->to - OPENING_BYTES;
    memcpy(in->bytes + piece->at, opening, OPENING_BYTES);
}

/* The lines of a reading, from after its reader on: at most 128 bytes each. It has none if its length is 0. */
struct reading {
    size_t len;
    char text[128 * (1 + BOARD_CHAIRS)];
};

/* A register, and the lines of readings of what is published, by each majority. */
struct desk {
    struct board_register handle;
    uint32_t published;
    struct reading readings[BOARD_MAJORITIES];
};

static struct board_room room;
static struct desk desk;

/* A fraction, or '-' if it is over 0. */
static char *put_fraction(char *to, uint64_t swings, uint64_t over) {
    return over ? put_number(put_number(to, ",", swings), "/", over) : put(to, ",-");
}

/* The line of a chair, whose board has `all` swings. */
static char *put_chair(char *to, const struct board_chair *row, const struct board_counts *counts, uint64_t all) {
    to = put_number(put(to, "chair"), ",", row->chair);
    to = put_number(put_number(to, ",", row->weight), ",", row->swings);
    to = put_fraction(to, row->swings, counts->coalitions / 2);
    to = put_fraction(to, row->swings, all);
    to = put_fraction(to, row->swings, counts->omega);
    to = put_fraction(to, row->swings, counts->coalitions - counts->omega);
    return put(to, "\n");
}

/* The line of a reading, from after its reader on. */
static char *put_head(char *to, uint32_t majority, const struct board_counts *counts) {
    const uint64_t numbers[] = {counts->chairs, counts->quota, counts->cast,
                                counts->total,  counts->omega, counts->coalitions};
    to = put(put(put_number(to, ",", desk.published), ","), board_majority_name(majority));
    for (size_t at = 0; at < sizeof numbers / sizeof *numbers; at++) to = put_number(to, ",", numbers[at]);
    return put(to, "\n");
}

static uint64_t all_swings(const struct board_counts *counts) {
    uint64_t all = 0;
    for (size_t at = 0; at < counts->chairs; at++) all += counts->rows[at].swings;
    return all;
}

static char *put_reading(char *to, uint32_t majority, const struct board_counts *counts) {
    const uint64_t all = all_swings(counts);
    to = put_head(to, majority, counts);
    for (size_t at = 0; at < counts->chairs; at++) to = put_chair(to, &counts->rows[at], counts, all);
    return to;
}

/* Answers a reading. Each of what is published is counted once. */
static uint8_t answer_read(const struct board_item *item) {
    struct reading *reading = &desk.readings[item->majority];
    if (!reading->len) {
        struct board_counts counts;
        uint8_t fault = board_register_read(&desk.handle, item->majority, &room, &counts);
        if (fault) return fault;
        reading->len = (size_t)(put_reading(reading->text, item->majority, &counts) - reading->text);
    }
    printf("reading,%lu", (unsigned long)item->reader);
    fwrite(reading->text, 1, reading->len, stdout);
    return BOARD_DONE;
}

static uint8_t answer_publish(void) {
    uint32_t before = desk.published;
    uint8_t fault = board_register_publish(&desk.handle, &desk.published);
    if (fault) return fault;
    for (size_t at = 0; at < BOARD_MAJORITIES && desk.published != before; at++) desk.readings[at].len = 0;
    printf("published,%lu\n", (unsigned long)desk.published);
    return BOARD_DONE;
}

/* Answers a command. Its refusal is no fault. */
static uint8_t answer_command(const struct board_command *command) {
    uint32_t accepted = 0;
    uint8_t refusal = board_register_apply(&desk.handle, command, &accepted);
    if (refusal == BOARD_OUT_OF_MEMORY || refusal == BOARD_TRAPPED) return refusal;
    if (refusal) printf("refused,%d,%s\n", refusal, board_refusal_name(refusal));
    else printf("accepted,%lu\n", (unsigned long)accepted);
    return BOARD_DONE;
}

/* Carries out a record, and writes its lines. Returns a fault that ends the run. */
static uint8_t answer(const struct board_item *item) {
    uint8_t fault = item->command.kind == BOARD_READ      ? answer_read(item)
                    : item->command.kind == BOARD_PUBLISH ? answer_publish()
                                                          : answer_command(&item->command);
    return ferror(stdout) ? (uint8_t)BOARD_WRITE_FAULT : fault;
}

/* Carries out the records of a piece. Returns a fault that ends the run, which is none of the input's. */
static uint8_t answer_all(const struct piece *piece) {
    uint8_t fault = BOARD_DONE;
    for (size_t at = 0; at < piece->items && !fault; at++) fault = answer(&items[at]);
    return fault;
}

/* Carries out the records of an input from its first piece on, and writes their lines. */
static uint8_t follow(struct piece *piece, const struct input *in) {
    uint8_t fault = board_register_start(members, piece->members, in->journal, &desk.handle);
    while (!fault && !(fault = answer_all(piece)) && !piece->is_last) {
        go_on(piece, in);
        read_piece(piece, in);
    }
    if (!fault) return piece->fault;
    piece->record = 0;
    return fault;
}

/* Replays an input, and writes its lines. A fault before the script leaves it without records. */
static uint8_t replay(const struct input *in) {
    struct piece piece = {0, 0, 0, 0, BOARD_TOO_LONG, 0, 1};
    if (in->len <= BOARD_INPUT_BYTES) read_piece(&piece, in);
    uint8_t fault = piece.fault && !piece.items ? piece.fault : follow(&piece, in);
    if (fault != BOARD_TRAPPED) board_register_free(&desk.handle);
    if (fault) say(piece.record ? piece.above + piece.record : 0, fault);
    return fault;
}

/* Traces an input with room for a text of some bytes, and writes the text: the fault that ended the run. If there is no
 * such room, or the text is longer, it writes nothing and returns BOARD_WRITE_FAULT. */
static uint8_t trace_in(const struct input *in, uint64_t size) {
    uint64_t written = 0;
    uint32_t record = 0;
    uint8_t fault = BOARD_WRITE_FAULT;
    uint8_t *text = size == (size_t)size ? (uint8_t *)malloc((size_t)size) : NULL;
    if (!text) return fault;
    fault = board_trace(in->bytes, in->len, in->readers, in->journal, text, (size_t)size, &written, &record);
    if (fault != BOARD_WRITE_FAULT) fwrite(text, 1, (size_t)written, stdout);
    free(text);
    return fault;
}

/* Traces an input with room for the whole text: what most inputs need at most, or else the length of the text. Where
 * there is no such room, memory ran out. */
static uint8_t trace(const struct input *in) {
    uint64_t size = 64 * (uint64_t)in->len + 65536;
    uint32_t record = 0;
    uint8_t fault = trace_in(in, size);
    if (fault != BOARD_WRITE_FAULT) return fault;
    board_trace_length(in->bytes, in->len, in->readers, in->journal, &size, &record);
    fault = trace_in(in, size);
    if (fault != BOARD_WRITE_FAULT) return fault;
    say(0, BOARD_OUT_OF_MEMORY);
    return BOARD_OUT_OF_MEMORY;
}

/* A command, which writes its lines and returns the fault that ended it. */
struct command {
    const char *name;
    uint8_t (*run)(const struct input *);
};

static const struct command commands[] = {
    {"replay", replay},
    {"trace", trace},
};

/* Reads standard input, at most a byte more than an input may have. */
static uint8_t read_input(struct input *in) {
    in->bytes = (uint8_t *)malloc(BOARD_INPUT_BYTES + 1);
    if (!in->bytes) return BOARD_OUT_OF_MEMORY;
    in->len = fread(in->bytes, 1, BOARD_INPUT_BYTES + 1, stdin);
    return ferror(stdin) ? READ_FAULT : 0;
}

/* Ends the program. */
static int end(uint8_t fault) {
    if (fflush(stdout) || ferror(stdout)) fault = BOARD_WRITE_FAULT;
    if (fault) fprintf(stderr, "board: %s\n", board_refusal_name(fault));
    return fault ? IN_FAULT : WELL;
}

/* Replays or traces standard input. */
static int begin(const struct command *command, uint32_t readers, uint32_t journal) {
    struct input in = {NULL, 0, readers, journal};
    uint8_t fault = read_input(&in);
    if (fault) say(0, fault);
    else fault = command->run(&in);
    free(in.bytes);
    return end(fault);
}

/* Prepares the streams: their bytes are not changed, and a reader that has gone is a fault of writing. */
static void prepare(void) {
#ifdef _WIN32
    _setmode(_fileno(stdin), _O_BINARY);
    _setmode(_fileno(stdout), _O_BINARY);
    _setmode(_fileno(stderr), _O_BINARY);
#endif
#ifdef SIGPIPE
    signal(SIGPIPE, SIG_IGN);
#endif
}

static int is_help(const char *word) { return !strcmp(word, "--help") || !strcmp(word, "-h"); }

/* Writes the help or the version, and ends well also where they can't be written, as docs/FORMATS.md says. */
static int show(int version) {
    if (version) printf("board %s (compiled from board.c)\n", board_version());
    else fputs(usage, stdout);
    return WELL;
}

int main(int count, char **words) {
    struct option readers = {"--readers", BOARD_READERS, 0}, journal = {"--journal", BOARD_COMMANDS, 0};
    const struct command *command = commands, *after = commands + sizeof commands / sizeof *commands;
    prepare();
    if (count < 2) return refuse("a command is required:", "replay");
    if (is_help(*++words) || !strcmp(*words, "help")) return show(0);
    if (!strcmp(*words, "--version") || !strcmp(*words, "-V")) return show(1);
    while (command < after && strcmp(*words, command->name)) command++;
    if (command == after) return refuse("there is no command", *words);
    if (++words, read_options(&words, &readers, &journal)) return REFUSED;
    if (*words && is_help(*words)) return show(0);
    if (*words && !strcmp(*words, "--")) words++;
    if (*words) return refuse("unexpected argument", *words);
    if (!readers.number) readers.number = 1;
    if (!journal.number) journal.number = BOARD_COMMANDS;
    return begin(command, readers.number, journal.number);
}
#endif
