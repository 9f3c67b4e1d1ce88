/* The library's calls for R's `.Call`. R has no whole numbers of 64 bits: they go as doubles, which hold each one up to
 * 2^53 exactly, and no count is above 2^48. The functions in R check values and make the messages. The checks here keep
 * any call within its memory. Nothing here is proved. */
#include "board.h"
#include "many.h"

#include <R.h>
#include <R_ext/Rdynload.h>
#include <R_ext/Utils.h>
#include <Rinternals.h>
#include <math.h>
#include <stdlib.h>
#include <string.h>

enum { MAJORITIES = 4, NUMBERS = 7, COLUMNS = 3, CODE = 3, OFTEN = 4096, MANY_COLUMNS = 4 };
/* Boards that are counted between two looks for an interrupt. */
enum { PART = 128 };
static const double ABOVE_WORDS = 18446744073709551616.0; /* 2^64 */

/* R makes one call at a time, so one room is enough. */
static struct board_room room;

/* The words of the majorities, by number, which the package sets when it is loaded. */
static SEXP words;

/* Values of R. */

static uint64_t word_of(double number) {
    if (!(number >= 0 && number < ABOVE_WORDS && number == floor(number))) error("a number isn't whole, from 0");
    return (uint64_t)number;
}

static uint64_t one_word(SEXP value) {
    if (!(isReal(value) || isInteger(value)) || XLENGTH(value) != 1) error("not one number");
    return word_of(asReal(value));
}

static uint32_t one_number(SEXP value) {
    uint64_t word = one_word(value);
    if (word > UINT32_MAX) error("a number is too large");
    return (uint32_t)word;
}

static int one_flag(SEXP value) {
    if (!isLogical(value) || XLENGTH(value) != 1 || LOGICAL(value)[0] == NA_LOGICAL) error("not TRUE or FALSE");
    return LOGICAL(value)[0];
}

static void check_vector(SEXP value, SEXPTYPE type, R_xlen_t len) {
    if (TYPEOF(value) != type || (len >= 0 && XLENGTH(value) != len)) error("a vector has a wrong type or length");
}

/* The names of all chairs, by number, or NULL if they have none. */
static void check_names(SEXP names) {
    if (names != R_NilValue) check_vector(names, STRSXP, BOARD_CHAIRS);
}

static void code_of(SEXP text, char code[CODE + 1]) {
    if (TYPEOF(text) != CHARSXP || LENGTH(text) != CODE) error("a code isn't three characters");
    memcpy(code, CHAR(text), CODE);
    code[CODE] = 0;
}

static SEXP text_of(const char code[CODE + 1]) { return mkCharLen(code, CODE); }

/* A list of some items with their names; the caller protects it and sets the items. */
static SEXP named_list(int len, const char *const *names) {
    SEXP list = PROTECT(allocVector(VECSXP, len)), words = PROTECT(allocVector(STRSXP, len));
    for (int at = 0; at < len; at++) SET_STRING_ELT(words, at, mkChar(names[at]));
    setAttrib(list, R_NamesSymbol, words);
    UNPROTECT(2);
    return list;
}

static SEXP new_item(SEXP list, int at, SEXPTYPE type, R_xlen_t len) {
    SEXP item = allocVector(type, len);
    SET_VECTOR_ELT(list, at, item);
    return item;
}

/* Counts. */

/* Counts as numbers: quota, least size, cast, total, omega, coalitions and chairs; then the number of each chair, the
 * weight of each, and the swings of each. */
static SEXP numbers_of(const struct board_counts *found) {
    const board_word head[NUMBERS] = {found->quota, found->least_size, found->cast,  found->total,
                                      found->omega, found->coalitions, found->chairs};
    int chairs = (int)found->chairs;
    SEXP numbers = PROTECT(allocVector(REALSXP, NUMBERS + COLUMNS * chairs));
    double *to = REAL(numbers);
    for (int at = 0; at < NUMBERS; at++) *to++ = (double)head[at];
    for (int at = 0; at < chairs; at++) {
        to[at] = (double)found->rows[at].chair;
        to[at + chairs] = (double)found->rows[at].weight;
        to[at + 2 * chairs] = (double)found->rows[at].swings;
    }
    UNPROTECT(1);
    return numbers;
}

static void set_fractions(SEXP to, const double *swings, double all) {
    for (R_xlen_t at = 0; at < XLENGTH(to); at++) REAL(to)[at] = all == 0 ? NA_REAL : swings[at] / all;
}

/* The data frame of the chairs of some counts. */
static SEXP chairs_of(const double *head, SEXP names) {
    static const char *const named[] = {"chair", "name", "weight", "swings", "banzhaf", "share", "prevent", "initiate"};
    static const char *const unnamed[] = {"chair", "weight", "swings", "banzhaf", "share", "prevent", "initiate"};
    int is_named = names != R_NilValue, chairs = (int)head[6], at = 0;
    const double *rows = head + NUMBERS, *swings = rows + 2 * chairs;
    double all = 0;
    SEXP frame = PROTECT(named_list(7 + is_named, is_named ? named : unnamed));
    SEXP chair = new_item(frame, at++, INTSXP, chairs);
    for (int row = 0; row < chairs; row++) {
        INTEGER(chair)[row] = (int)rows[row];
        all += swings[row];
    }
    if (is_named) {
        SEXP name = new_item(frame, at++, STRSXP, chairs);
        for (int row = 0; row < chairs; row++) SET_STRING_ELT(name, row, STRING_ELT(names, (int)rows[row] - 1));
    }
    const double divisors[] = {1, 1, head[5] / 2, all, head[4], head[5] - head[4]};
    for (int column = 0; column < 6; column++) {
        SEXP to = new_item(frame, at++, REALSXP, chairs);
        set_fractions(to, column ? swings : rows + chairs, divisors[column]);
    }
    SEXP rownames = PROTECT(allocVector(INTSXP, 2));
    INTEGER(rownames)[0] = NA_INTEGER;
    INTEGER(rownames)[1] = -chairs;
    setAttrib(frame, R_RowNamesSymbol, rownames);
    setAttrib(frame, R_ClassSymbol, mkString("data.frame"));
    UNPROTECT(2);
    return frame;
}

/* The object of class board_indices of some numbers. */
static SEXP indices_of(SEXP numbers, uint32_t majority, SEXP names) {
    static const char *const parts[] = {"majority", "quota",      "least_size", "cast",  "total",
                                        "omega",    "coalitions", "act",        "chairs"};
    const double *head = REAL(numbers);
    SEXP list = PROTECT(named_list(9, parts));
    SET_VECTOR_ELT(list, 0, ScalarString(STRING_ELT(words, majority)));
    for (int at = 0; at < 6; at++) SET_VECTOR_ELT(list, at + 1, ScalarReal(head[at]));
    SET_VECTOR_ELT(list, 7, ScalarReal(head[4] / head[5]));
    SET_VECTOR_ELT(list, 8, chairs_of(head, names));
    setAttrib(list, R_ClassSymbol, mkString("board_indices"));
    UNPROTECT(1);
    return list;
}

/* What a call returns: the number of its refusal, or the object of the counts by a majority, or, for MAJORITIES, a
 * list of those by all of them. */
static SEXP answer(uint8_t refusal, const struct board_counts *one, struct board_all_counts *all, uint32_t majority,
                   SEXP names) {
    if (refusal != BOARD_DONE) return ScalarInteger(refusal);
    if (majority < MAJORITIES) {
        SEXP found = PROTECT(indices_of(PROTECT(numbers_of(one)), majority, names));
        UNPROTECT(2);
        return found;
    }
    SEXP list = PROTECT(allocVector(VECSXP, MAJORITIES));
    setAttrib(list, R_NamesSymbol, words);
    for (uint32_t at = 0; at < MAJORITIES; at++) {
        SEXP numbers = PROTECT(numbers_of(by_majority(all, at)));
        SET_VECTOR_ELT(list, at, indices_of(numbers, at, names));
        UNPROTECT(1);
    }
    UNPROTECT(1);
    return list;
}

static uint32_t majority_of(SEXP majority) {
    uint32_t number = one_number(majority);
    if (number > MAJORITIES) error("no majority has this number");
    return number;
}

/* The indices of an object of numbers, as numbers_of makes them. */
static SEXP r_indices(SEXP numbers, SEXP majority, SEXP names) {
    check_vector(numbers, REALSXP, -1);
    check_names(names);
    if (XLENGTH(numbers) < NUMBERS || XLENGTH(numbers) != NUMBERS + COLUMNS * REAL(numbers)[6]) error("not a board");
    for (int at = 0; at < REAL(numbers)[6]; at++) {
        uint64_t chair = word_of(REAL(numbers)[NUMBERS + at]);
        if (chair < 1 || chair > BOARD_CHAIRS) error("not a board");
    }
    return indices_of(numbers, majority_of(majority) % MAJORITIES, names);
}

/* Puts weights and a total into the words of a sheet. */
static void put_sheet(uint64_t sheet[BOARD_SHEET_WORDS], const double *weights, R_xlen_t len, double total) {
    if (len > BOARD_CHAIRS) error("too many weights");
    memset(sheet, 0, BOARD_SHEET_WORDS * sizeof sheet[0]);
    for (R_xlen_t at = 0; at < len; at++) sheet[at] = word_of(weights[at]) + 1;
    sheet[BOARD_CHAIRS] = word_of(total);
}

static SEXP r_weights(SEXP weights, SEXP total, SEXP majority, SEXP names) {
    struct board_counts one;
    struct board_all_counts all;
    uint64_t sheet[BOARD_SHEET_WORDS];
    uint32_t number = majority_of(majority);
    check_vector(weights, REALSXP, -1);
    check_vector(total, REALSXP, 1);
    check_names(names);
    put_sheet(sheet, REAL(weights), XLENGTH(weights), REAL(total)[0]);
    uint8_t refusal = number < MAJORITIES ? board_counts_of_sheet(sheet, BOARD_SHEET_WORDS, number, &room, &one)
                                          : board_all_counts_of_sheet(sheet, BOARD_SHEET_WORDS, &room, &all);
    return answer(refusal, &one, &all, number, names);
}

/* Members, each with votes, a chair or 0, and whether it is suspended; and the chairs that are open without members, as
 * a number with a bit for each. */
static SEXP r_members(SEXP votes, SEXP chairs, SEXP suspended, SEXP open, SEXP majority, SEXP names) {
    struct board_counts one;
    struct board_all_counts all;
    uint64_t sheet[BOARD_SHEET_WORDS] = {0};
    R_xlen_t len = XLENGTH(votes);
    uint32_t number = majority_of(majority), mask = one_number(open);
    check_vector(votes, REALSXP, len);
    check_vector(chairs, REALSXP, len);
    check_vector(suspended, LGLSXP, len);
    check_names(names);
    struct board_member *list = (struct board_member *)R_alloc((size_t)len + 1, sizeof *list);
    for (R_xlen_t at = 0; at < len; at++) {
        list[at].votes = word_of(REAL(votes)[at]);
        list[at].chair = word_of(REAL(chairs)[at]);
        list[at].suspended = LOGICAL(suspended)[at] != 0;
    }
    uint8_t refusal = board_counts_of_members(list, (size_t)len, mask, number % MAJORITIES, &room, &one);
    if (refusal == BOARD_DONE && number == MAJORITIES) {
        for (size_t at = 0; at < one.chairs; at++) sheet[one.rows[at].chair - 1] = one.rows[at].weight + 1;
        sheet[BOARD_CHAIRS] = one.total;
        refusal = board_all_counts_of_sheet(sheet, BOARD_SHEET_WORDS, &room, &all);
    }
    return answer(refusal, &one, &all, number, names);
}

/* Many boards: their weights by board and chair, the numbers of their chairs, their totals, some majorities, and
 * columns for what is found: by board and majority the quota, the least size and omega; the swings by board, majority
 * and chair. */
struct many {
    SEXP majorities;
    const double *weights, *totals;
    const int *own_chairs;
    R_xlen_t len, kinds, chairs;
    double *columns[MANY_COLUMNS];
};

/* Checks the boards and majorities of a call. */
static struct many many_of(SEXP weights, SEXP chairs, SEXP totals, SEXP majorities) {
    R_xlen_t len = XLENGTH(chairs), most = len ? XLENGTH(weights) / len : 0;
    check_vector(chairs, INTSXP, len);
    check_vector(weights, REALSXP, len * most);
    check_vector(totals, REALSXP, len);
    check_vector(majorities, INTSXP, -1);
    for (R_xlen_t at = 0; at < XLENGTH(majorities); at++)
        if (INTEGER(majorities)[at] < 0 || INTEGER(majorities)[at] >= MAJORITIES) error("no majority has this number");
    for (R_xlen_t at = 0; at < len; at++)
        if (INTEGER(chairs)[at] < 0 || INTEGER(chairs)[at] > most) error("a board has no such chairs");
    if (most > BOARD_CHAIRS) error("too many weights");
    return (struct many){.majorities = majorities,
                         .weights = REAL(weights),
                         .totals = REAL(totals),
                         .own_chairs = INTEGER(chairs),
                         .len = len,
                         .kinds = XLENGTH(majorities),
                         .chairs = most};
}

/* Makes the list of the columns; the caller protects it. */
static SEXP new_columns(struct many *many) {
    static const char *const names[] = {"quota", "least_size", "omega", "swings"};
    R_xlen_t both = many->len * many->kinds;
    SEXP list = PROTECT(named_list(MANY_COLUMNS, names));
    for (int at = 0; at < MANY_COLUMNS; at++)
        many->columns[at] = REAL(new_item(list, at, REALSXP, at < MANY_COLUMNS - 1 ? both : both * many->chairs));
    UNPROTECT(1);
    return list;
}

/* Puts the counts of a board into the columns. The swings are NA for chairs that it has not. */
static void put_counts(const struct many *many, R_xlen_t board, struct board_all_counts *all) {
    double *const *to = many->columns;
    R_xlen_t chairs = many->own_chairs[board];
    for (R_xlen_t kind = 0; kind < many->kinds; kind++) {
        const struct board_counts *found = by_majority(all, (uint32_t)INTEGER(many->majorities)[kind]);
        R_xlen_t at = board + many->len * kind;
        to[0][at] = (double)found->quota;
        to[1][at] = (double)found->least_size;
        to[2][at] = (double)found->omega;
        for (R_xlen_t chair = 0; chair < many->chairs; chair++) {
            double *swings = &to[3][at + many->len * many->kinds * chair];
            *swings = chair < chairs ? (double)found->rows[chair].swings : NA_REAL;
        }
    }
}

/* The majorities that are asked for, as a number with a bit for each. */
static uint32_t asked_of(SEXP majorities) {
    uint32_t asked = 0;
    for (R_xlen_t at = 0; at < XLENGTH(majorities); at++) asked |= 1u << INTEGER(majorities)[at];
    return asked;
}

/* Counts the `len` boards that begin with the board `first`. */
static void count_part(const struct many *many, R_xlen_t first, R_xlen_t len, struct board_room *rooms, int threads) {
    uint64_t sheets[PART][BOARD_SHEET_WORDS];
    static struct counted found[PART];
    for (R_xlen_t at = 0; at < len; at++) {
        double weights[BOARD_CHAIRS];
        for (R_xlen_t chair = 0; chair < many->own_chairs[first + at]; chair++)
            weights[chair] = many->weights[first + at + many->len * chair];
        put_sheet(sheets[at], weights, many->own_chairs[first + at], many->totals[first + at]);
    }
    struct counting counting = {(const uint64_t(*)[BOARD_SHEET_WORDS])sheets, found, (size_t)len,
                                asked_of(many->majorities)};
    count_sheets(&counting, rooms, threads);
    for (R_xlen_t at = 0; at < len; at++) {
        if (found[at].refusal != BOARD_DONE)
            error("board %.0f is refused: %d", (double)(first + at) + 1, found[at].refusal);
        put_counts(many, first + at, &found[at].all);
    }
}

/* Counts many boards by some majorities, on some threads at a time, or on one for each processor if `processors` is 0.
 * R sees an interrupt after each PART of boards. */
static SEXP r_many(SEXP weights, SEXP chairs, SEXP totals, SEXP majorities, SEXP processors) {
    struct many many = many_of(weights, chairs, totals, majorities);
    uint32_t asked = one_number(processors);
    int threads = asked == 0 ? most_threads() : asked < MOST_THREADS ? (int)asked : MOST_THREADS;
    if (threads > many.len) threads = many.len < 1 ? 1 : (int)many.len;
    struct board_room *rooms = (struct board_room *)R_alloc((size_t)threads, sizeof *rooms);
    SEXP list = PROTECT(new_columns(&many));
    for (R_xlen_t first = 0; first < many.len; first += PART) {
        count_part(&many, first, many.len - first < PART ? many.len - first : PART, rooms, threads);
        R_CheckUserInterrupt();
    }
    UNPROTECT(1);
    return list;
}

/* Handles. A register is in an external pointer, whose finalizer frees it: also after an error or an interrupt. */

/* The number of the command that opened each chair, or 0 for a closed one, after the first commands of a journal. */
struct openings {
    uint32_t commands;
    int chairs[BOARD_CHAIRS];
};

/* A register, what was found of its chairs as it stands and as it is published, and the bytes that it counts for. R's
 * collector doesn't see these bytes, so it is called when they are twice as many as it left. The names of its chairs
 * are the pointer's protected value, by the commands that opened the chairs: R/chair_names.R has their form. */
struct held {
    struct board_register handle;
    struct openings now, published;
    size_t bytes;
};
enum { COMMAND_BYTES = 21, REGISTER_BYTES = 20000, LEAST_BOUND = 64 << 20 };
static size_t held_bytes, bound = LEAST_BOUND;

/* Counts the bytes of a register after a call that changed it. */
static void weigh(struct board_register *handle) {
    struct held *held = (struct held *)handle;
    size_t bytes = REGISTER_BYTES + (size_t)board_register_accepted(handle) * COMMAND_BYTES;
    held_bytes += bytes - held->bytes;
    held->bytes = bytes;
}

static void finalize(SEXP pointer) {
    struct held *held = R_ExternalPtrAddr(pointer);
    R_ClearExternalPtr(pointer);
    if (held == NULL) return;
    held_bytes -= held->bytes;
    board_register_free(&held->handle);
    free(held);
}

/* The caller protects it. */
static SEXP new_handle(struct board_register **handle) {
    if (held_bytes > bound) {
        R_gc();
        bound = held_bytes > LEAST_BOUND / 2 ? 2 * held_bytes : LEAST_BOUND;
    }
    SEXP pointer = PROTECT(R_MakeExternalPtr(NULL, install("board_register"), R_NilValue));
    R_RegisterCFinalizerEx(pointer, finalize, TRUE);
    struct held *held = calloc(1, sizeof *held);
    if (held == NULL) error("out of memory");
    R_SetExternalPtrAddr(pointer, held);
    *handle = &held->handle;
    UNPROTECT(1);
    return pointer;
}

static struct board_register *handle_of(SEXP pointer) {
    if (TYPEOF(pointer) != EXTPTRSXP || R_ExternalPtrTag(pointer) != install("board_register")) error("not a register");
    struct board_register *handle = R_ExternalPtrAddr(pointer);
    if (handle == NULL) error("the register is gone");
    return handle;
}

static SEXP r_is_there(SEXP pointer) {
    if (TYPEOF(pointer) != EXTPTRSXP || R_ExternalPtrTag(pointer) != install("board_register")) error("not a register");
    struct board_register *handle = R_ExternalPtrAddr(pointer);
    return ScalarLogical(handle != NULL && handle->state != 0);
}

/* After a trap nothing is known of a register, so its handle lets go of it. */
static uint8_t checked(uint8_t result, struct board_register *handle) {
    if (result == BOARD_TRAPPED) memset(handle, 0, sizeof *handle);
    return result;
}

static SEXP r_start(SEXP codes, SEXP votes, SEXP journal) {
    struct board_register *handle;
    R_xlen_t len = XLENGTH(codes);
    check_vector(codes, STRSXP, len);
    check_vector(votes, REALSXP, len);
    uint32_t most = one_number(journal);
    struct board_entry *entries = (struct board_entry *)R_alloc((size_t)len + 1, sizeof *entries);
    for (R_xlen_t at = 0; at < len; at++) {
        code_of(STRING_ELT(codes, at), entries[at].code);
        entries[at].votes = word_of(REAL(votes)[at]);
    }
    SEXP pointer = PROTECT(new_handle(&handle));
    uint8_t refusal = checked(board_register_start(entries, (size_t)len, most, handle), handle);
    weigh(handle);
    UNPROTECT(1);
    return refusal == BOARD_DONE ? pointer : ScalarInteger(refusal);
}

/* Goes on to the openings after the first commands of a journal. */
static void open_to(struct board_register *handle, struct openings *it, uint32_t commands) {
    if (it->commands > commands) memset(it, 0, sizeof *it);
    for (; it->commands < commands; it->commands++) {
        struct board_command found;
        if (board_register_command_at(handle, it->commands, &found) != BOARD_DONE) error("no command");
        if (found.kind == BOARD_OPEN) it->chairs[found.chair - 1] = (int)it->commands + 1;
        if (found.kind == BOARD_CLOSE) it->chairs[found.chair - 1] = 0;
    }
}

/* The number of the command that opened each chair, or 0 for a closed one. */
static SEXP r_openings(SEXP pointer, SEXP published) {
    struct board_register *handle = handle_of(pointer);
    struct held *held = (struct held *)handle;
    struct openings *it = one_flag(published) ? &held->published : &held->now;
    open_to(handle, it, one_flag(published) ? board_register_published(handle) : board_register_accepted(handle));
    SEXP found = PROTECT(allocVector(INTSXP, BOARD_CHAIRS));
    memcpy(INTEGER(found), it->chairs, sizeof it->chairs);
    UNPROTECT(1);
    return found;
}

static SEXP r_names(SEXP pointer) {
    handle_of(pointer);
    return R_ExternalPtrProtected(pointer);
}

/* Sets the names of chairs, unless they are NULL. */
static SEXP r_set_names(SEXP pointer, SEXP names) {
    handle_of(pointer);
    if (names != R_NilValue) R_SetExternalPtrProtected(pointer, names);
    return R_NilValue;
}

/* The number of accepted commands, or minus the number of the refusal. Names of chairs are set with the command. */
static SEXP r_apply(SEXP pointer, SEXP kind, SEXP code, SEXP chair, SEXP votes, SEXP names) {
    struct board_register *handle = handle_of(pointer);
    struct board_command command = {0};
    uint32_t accepted = 0;
    check_vector(code, STRSXP, 1);
    command.kind = one_number(kind);
    if (LENGTH(STRING_ELT(code, 0)) > 0) code_of(STRING_ELT(code, 0), command.code);
    command.chair = one_word(chair);
    command.votes = one_word(votes);
    uint8_t refusal = checked(board_register_apply(handle, &command, &accepted), handle);
    weigh(handle);
    if (refusal == BOARD_DONE) r_set_names(pointer, names);
    return ScalarInteger(refusal == BOARD_DONE ? (int)accepted : -(int)refusal);
}

static SEXP r_publish(SEXP pointer) {
    struct board_register *handle = handle_of(pointer);
    uint32_t published = 0;
    uint8_t refusal = checked(board_register_publish(handle, &published), handle);
    return ScalarInteger(refusal == BOARD_DONE ? (int)published : -(int)refusal);
}

static SEXP r_counts(SEXP pointer, SEXP majority, SEXP names, SEXP published) {
    struct board_register *handle = handle_of(pointer);
    struct board_counts one;
    struct board_all_counts all;
    uint32_t number = majority_of(majority);
    uint8_t refusal;
    check_names(names);
    if (number == MAJORITIES) refusal = board_register_all_counts(handle, &room, &all);
    else if (one_flag(published)) refusal = board_register_read(handle, number, &room, &one);
    else refusal = board_register_counts(handle, number, &room, &one);
    return answer(checked(refusal, handle), &one, &all, number, names);
}

static SEXP r_state(SEXP pointer) {
    struct board_register *handle = handle_of(pointer);
    SEXP state = PROTECT(allocVector(INTSXP, 2));
    INTEGER(state)[0] = (int)board_register_accepted(handle);
    INTEGER(state)[1] = (int)board_register_published(handle);
    UNPROTECT(1);
    return state;
}

static SEXP r_sheet(SEXP pointer) {
    uint64_t sheet[BOARD_SHEET_WORDS] = {0};
    if (board_register_sheet(handle_of(pointer), sheet) != BOARD_DONE) error("no sheet");
    SEXP numbers = PROTECT(allocVector(REALSXP, BOARD_SHEET_WORDS));
    for (int at = 0; at < BOARD_SHEET_WORDS; at++) REAL(numbers)[at] = (double)sheet[at];
    UNPROTECT(1);
    return numbers;
}

/* Members as they stand: code, votes, chair or NA, suspended. */
static SEXP r_rows(SEXP pointer) {
    static const char *const parts[] = {"code", "votes", "chair", "suspended"};
    struct board_register *handle = handle_of(pointer);
    size_t len = board_register_members(handle);
    SEXP list = PROTECT(named_list(4, parts));
    SEXP code = new_item(list, 0, STRSXP, (R_xlen_t)len), votes = new_item(list, 1, REALSXP, (R_xlen_t)len);
    SEXP chair = new_item(list, 2, INTSXP, (R_xlen_t)len), suspended = new_item(list, 3, LGLSXP, (R_xlen_t)len);
    for (size_t at = 0; at < len; at++) {
        struct board_member_row row;
        if (board_register_member_at(handle, at, &row) != BOARD_DONE) error("no member");
        SET_STRING_ELT(code, (R_xlen_t)at, text_of(row.code));
        REAL(votes)[at] = (double)row.votes;
        INTEGER(chair)[at] = row.chair ? (int)row.chair : NA_INTEGER;
        LOGICAL(suspended)[at] = row.suspended != 0;
    }
    UNPROTECT(1);
    return list;
}

/* Members with which the register started: code, votes. */
static SEXP r_entries(SEXP pointer) {
    static const char *const parts[] = {"code", "votes"};
    struct board_register *handle = handle_of(pointer);
    size_t len = board_register_entries(handle);
    SEXP list = PROTECT(named_list(2, parts));
    SEXP code = new_item(list, 0, STRSXP, (R_xlen_t)len), votes = new_item(list, 1, REALSXP, (R_xlen_t)len);
    for (size_t at = 0; at < len; at++) {
        struct board_entry entry;
        if (board_register_entry_at(handle, at, &entry) != BOARD_DONE) error("no entry");
        SET_STRING_ELT(code, (R_xlen_t)at, text_of(entry.code));
        REAL(votes)[at] = (double)entry.votes;
    }
    UNPROTECT(1);
    return list;
}

/* The journal: the number of each command's kind, and code, chair and votes, each NA if the command has none. */
static SEXP r_commands(SEXP pointer) {
    static const char *const parts[] = {"kind", "code", "chair", "votes"};
    struct board_register *handle = handle_of(pointer);
    R_xlen_t len = (R_xlen_t)board_register_accepted(handle);
    SEXP list = PROTECT(named_list(4, parts));
    SEXP kind = new_item(list, 0, INTSXP, len), code = new_item(list, 1, STRSXP, len);
    SEXP chair = new_item(list, 2, INTSXP, len), votes = new_item(list, 3, REALSXP, len);
    for (R_xlen_t at = 0; at < len; at++) {
        struct board_command it;
        if (board_register_command_at(handle, (size_t)at, &it) != BOARD_DONE) error("no command");
        INTEGER(kind)[at] = (int)it.kind;
        SET_STRING_ELT(code, at, it.code[0] ? text_of(it.code) : NA_STRING);
        INTEGER(chair)[at] = it.chair ? (int)it.chair : NA_INTEGER;
        REAL(votes)[at] = it.kind == BOARD_VOTES || it.kind == BOARD_ADMIT ? (double)it.votes : NA_REAL;
        if (at % OFTEN == 0) R_CheckUserInterrupt();
    }
    UNPROTECT(1);
    return list;
}

static SEXP r_copy(SEXP pointer, SEXP length) {
    struct board_register *handle = handle_of(pointer), *copy;
    uint32_t accepted = one_number(length);
    SEXP other = PROTECT(new_handle(&copy));
    uint8_t refusal = checked(board_register_copy(handle, accepted, copy), copy);
    weigh(copy);
    r_set_names(other, r_names(pointer));
    UNPROTECT(1);
    return refusal == BOARD_DONE ? other : ScalarInteger(refusal);
}

/* Goes back to the first commands, with their names of chairs. */
static SEXP r_undo(SEXP pointer, SEXP length, SEXP names) {
    struct board_register *handle = handle_of(pointer);
    struct held *held = (struct held *)handle;
    uint32_t accepted = one_number(length);
    uint8_t refusal = checked(board_register_undo(handle, accepted, accepted), handle);
    if (refusal != BOARD_DONE) return ScalarInteger(refusal);
    weigh(handle);
    memset(&held->now, 0, sizeof held->now);
    memset(&held->published, 0, sizeof held->published);
    return r_set_names(pointer, names);
}

/* Scripts. */

static const char OPENING[] = "member,votes\nscript\n";
enum { OPENING_BYTES = sizeof OPENING - 1, OPENING_RECORDS = 2, LEAST_RECORD = 6 };

/* The records of a text of any length, which board_script reads in pieces. */
struct script {
    const uint8_t *text;
    size_t len;
    size_t at;       /* the pieces up to here are read */
    size_t piece_at; /* where this piece begins in the text */
    size_t opening;  /* the bytes in front of this piece: those of OPENING, or none */
    uint8_t *piece;
    struct board_item *items;
    size_t items_len;
    size_t many;      /* the items of this piece */
    double base;      /* what is added to the number of an item, for that of its record */
    double next_base; /* the same for the next piece */
    uint32_t record;  /* of a fault: the number of its record, or 0 */
};

static struct script script_of(SEXP text) {
    struct script it = {0};
    check_vector(text, RAWSXP, -1);
    it.text = RAW(text);
    it.len = (size_t)XLENGTH(text);
    it.opening = OPENING_BYTES;
    it.base = it.next_base = -OPENING_RECORDS;
    size_t most = it.len < BOARD_INPUT_BYTES ? it.len : BOARD_INPUT_BYTES;
    it.piece = (uint8_t *)R_alloc(most + OPENING_BYTES, 1);
    memcpy(it.piece, OPENING, OPENING_BYTES);
    it.items_len = most / LEAST_RECORD + 1;
    it.items = (struct board_item *)R_alloc(it.items_len, sizeof *it.items);
    return it;
}

/* Reads the next piece of a script. A piece before the last may end within a record, which is then left to the next
 * piece: as an item that ends where the piece does, or as a fault. If a piece has nothing but a fault, it may be empty
 * lines before such a record, so a shorter piece is tried. Returns a fault that isn't due to the cut, or BOARD_DONE. */
static uint8_t next_piece(struct script *it) {
    size_t members, rest = it->len - it->at, most = BOARD_INPUT_BYTES - OPENING_BYTES;
    uint8_t first = BOARD_DONE;
    uint32_t record = 0;
    it->opening = OPENING_BYTES;
    it->piece_at = it->at;
    it->base = it->next_base;
    for (size_t size = rest < most ? rest : most;; size /= 2) {
        memcpy(it->piece + OPENING_BYTES, it->text + it->at, size);
        uint8_t fault = board_script(it->piece, OPENING_BYTES + size, BOARD_READERS, NULL, 0, &members, it->items,
                                     it->items_len, &it->many, &record);
        const struct board_item *last = it->many ? &it->items[it->many - 1] : NULL;
        if (first == BOARD_DONE) {
            first = fault;
            it->record = record;
        }
        if (size == rest || fault == BOARD_OUT_OF_MEMORY || fault == BOARD_TRAPPED) {
            it->at = it->len;
            return fault;
        }
        size_t to = last != NULL ? last->to : fault == BOARD_DONE ? OPENING_BYTES + size : OPENING_BYTES;
        if (last != NULL && fault == BOARD_DONE && to == OPENING_BYTES + size) {
            to = last->from;
            it->many--;
        }
        it->at += to - OPENING_BYTES;
        it->next_base = it->base + (double)it->many;
        if (to > OPENING_BYTES) return BOARD_DONE;
        if (size <= 1) return first;
    }
}

/* Where a script is refused: the number of the refusal, or 0 if nothing is, that of the record, and the record's bytes
 * from an offset to another, or NA. */
struct place {
    double refusal, record, from, to;
};

static const struct place NOWHERE = {0, 0, 0, 0};

/* A place as R gets it, or NULL. */
static SEXP answer_at(struct place place) {
    if (place.refusal == 0) return R_NilValue;
    SEXP found = PROTECT(allocVector(REALSXP, 4));
    memcpy(REAL(found), &place, sizeof place);
    UNPROTECT(1);
    return found;
}

static struct place refused_item(const struct script *it, const struct board_item *item, uint8_t refusal) {
    double offset = (double)it->piece_at - (double)it->opening;
    return (struct place){refusal, it->base + item->number, offset + item->from, offset + item->to};
}

static struct place refused_fault(const struct script *it, uint8_t fault) {
    double from = it->many ? (double)it->items[it->many - 1].to - (double)it->opening : 0;
    return (struct place){fault, it->record ? it->base + it->record : 0, (double)it->piece_at + from, NA_REAL};
}

/* Carries out an item that changes a register. */
static uint8_t carry_out(struct board_register *handle, const struct board_item *item) {
    uint32_t number;
    if (item->command.kind == BOARD_READ) return BOARD_BAD_RECORD;
    return checked(item->command.kind == BOARD_PUBLISH ? board_register_publish(handle, &number)
                                                       : board_register_apply(handle, &item->command, &number),
                   handle);
}

/* Carries out the rest of a script on a register, from a piece that is read and its fault; with `reads`, readings are
 * passed over. R allocates nothing meanwhile. */
static struct place run(struct script *it, uint8_t fault, struct board_register *handle, int reads) {
    for (;;) {
        for (size_t at = 0; at < it->many; at++) {
            const struct board_item *item = &it->items[at];
            if (reads && item->command.kind == BOARD_READ) continue;
            uint8_t refusal = carry_out(handle, item);
            if (refusal != BOARD_DONE) return refused_item(it, item, refusal);
        }
        if (fault != BOARD_DONE) return refused_fault(it, fault);
        if (it->at == it->len) return NOWHERE;
        fault = next_piece(it);
    }
}

/* Takes a register back to these numbers of accepted and published commands, unless it is there. It needs no memory. */
static void take_back(struct board_register *handle, uint32_t accepted, uint32_t published) {
    if (board_register_accepted(handle) != accepted || board_register_published(handle) != published)
        board_register_undo(handle, accepted, published);
}

/* Carries out records, all or none. NULL if nothing is refused. */
static SEXP r_submit(SEXP pointer, SEXP text) {
    struct board_register *handle = handle_of(pointer);
    struct script it = script_of(text);
    uint8_t fault = next_piece(&it);
    const uint32_t accepted = board_register_accepted(handle), published = board_register_published(handle);
    const struct place refused = run(&it, fault, handle, 0);
    if (refused.refusal != 0) take_back(handle, accepted, published);
    weigh(handle);
    return answer_at(refused);
}

/* What would refuse records: a command is checked, and anything else is carried out and taken back. */
static SEXP r_check(SEXP pointer, SEXP text) {
    struct board_register *handle = handle_of(pointer);
    struct script it = script_of(text);
    uint8_t fault = next_piece(&it);
    if (fault == BOARD_DONE && it.at == it.len && it.many == 1 && it.items[0].command.kind <= BOARD_WITHDRAW) {
        uint8_t refusal = checked(board_register_check(handle, &it.items[0].command), handle);
        return refusal == BOARD_DONE ? R_NilValue : answer_at(refused_item(&it, &it.items[0], refusal));
    }
    const uint32_t accepted = board_register_accepted(handle), published = board_register_published(handle);
    const struct place refused = run(&it, fault, handle, 0);
    take_back(handle, accepted, published);
    return answer_at(refused);
}

/* Reads the first piece of a script with its members. Returns a fault that isn't due to the cut, or BOARD_DONE. */
static uint8_t first_piece(struct script *it, struct board_entry *entries, size_t *members) {
    size_t size = it->len < BOARD_INPUT_BYTES ? it->len : BOARD_INPUT_BYTES;
    it->opening = 0;
    it->base = 0;
    uint8_t fault = board_script(it->text, size, BOARD_READERS, entries, BOARD_MEMBERS, members, it->items,
                                 it->items_len, &it->many, &it->record);
    it->at = size;
    if (size == it->len || (it->many == 0 && fault != BOARD_DONE)) return fault;
    if (it->many > 0) {
        const struct board_item *last = &it->items[it->many - 1];
        it->at = last->to;
        if (fault == BOARD_DONE && last->to == size) {
            it->at = last->from;
            it->many--;
        }
    }
    it->next_base = (double)(*members + it->many);
    return BOARD_DONE;
}

/* The register of a script, or where it is refused. */
static SEXP r_from_script(SEXP text, SEXP journal) {
    struct board_register *handle;
    struct board_entry entries[BOARD_MEMBERS];
    size_t members = 0;
    uint32_t most = one_number(journal);
    struct script it = script_of(text);
    uint8_t fault = first_piece(&it, entries, &members);
    if (fault != BOARD_DONE && it.many == 0 && it.record <= members + OPENING_RECORDS)
        return answer_at(refused_fault(&it, fault));
    SEXP pointer = PROTECT(new_handle(&handle));
    uint8_t refusal = checked(board_register_start(entries, members, most, handle), handle);
    struct place refused = refusal == BOARD_DONE ? run(&it, fault, handle, 1) : (struct place){refusal, 0, 0, NA_REAL};
    weigh(handle);
    SEXP found = refused.refusal == 0 ? pointer : answer_at(refused);
    UNPROTECT(1);
    return found;
}

/* A replay, and what a reading by each majority is of since the last publication: the place of its counts in `boards`,
 * from 1, or 0 if there was none. */
struct replay {
    struct board_register *handle;
    SEXP boards;
    int len;
    int board[MAJORITIES];
    uint32_t published;
};

enum outcome { ACCEPTED, REFUSED, PUBLISHED, READING };

static uint8_t read_board(struct replay *it, uint32_t majority) {
    struct board_counts found;
    if (it->board[majority] != 0) return BOARD_DONE;
    uint8_t refusal = checked(board_register_read(it->handle, majority, &room, &found), it->handle);
    if (refusal != BOARD_DONE) return refusal;
    SET_VECTOR_ELT(it->boards, it->len, numbers_of(&found));
    it->board[majority] = ++it->len;
    R_CheckUserInterrupt();
    return BOARD_DONE;
}

/* Carries out an item. Sets what came of it and a number: of accepted commands, of the refusal, of published commands,
 * or of the commands that a reading is of. Returns a refusal that ends the replay, or BOARD_DONE. */
static uint8_t replayed(struct replay *it, const struct board_item *item, int *what, int *number) {
    uint32_t count = it->published;
    uint8_t refusal = BOARD_DONE;
    if (item->command.kind == BOARD_READ) {
        *what = READING;
        refusal = read_board(it, item->majority);
    } else if (item->command.kind == BOARD_PUBLISH) {
        *what = PUBLISHED;
        refusal = checked(board_register_publish(it->handle, &count), it->handle);
        if (count != it->published) memset(it->board, 0, sizeof it->board);
        it->published = count;
    } else {
        uint8_t verdict = checked(board_register_apply(it->handle, &item->command, &count), it->handle);
        *what = verdict == BOARD_DONE ? ACCEPTED : REFUSED;
        if (verdict != BOARD_DONE) count = verdict;
        if (verdict == BOARD_OUT_OF_MEMORY || verdict == BOARD_TRAPPED) refusal = verdict;
    }
    *number = (int)count;
    return refusal;
}

/* Carries out items, and writes what came of them to the columns of a list. */
static uint8_t replay_items(struct replay *it, const struct board_item *items, size_t many, SEXP list) {
    int *record = INTEGER(VECTOR_ELT(list, 3)), *what = INTEGER(VECTOR_ELT(list, 4));
    int *number = INTEGER(VECTOR_ELT(list, 5)), *reader = INTEGER(VECTOR_ELT(list, 7));
    int *majority = INTEGER(VECTOR_ELT(list, 8)), *board = INTEGER(VECTOR_ELT(list, 9));
    for (size_t at = 0; at < many; at++) {
        const struct board_item *item = &items[at];
        record[at] = (int)item->number;
        uint8_t refusal = replayed(it, item, &what[at], &number[at]);
        if (refusal != BOARD_DONE) return refusal;
        if (what[at] == READING) {
            *reader++ = (int)item->reader;
            *majority++ = (int)item->majority;
            *board++ = it->board[item->majority];
        }
        if (at % OFTEN == 0) R_CheckUserInterrupt();
    }
    return BOARD_DONE;
}

/* The texts of refused records. */
static SEXP refused_texts(const char *input, const struct board_item *items, size_t many, const int *what) {
    size_t refusals = 0;
    for (size_t at = 0; at < many; at++) refusals += what[at] == REFUSED;
    SEXP texts = PROTECT(allocVector(STRSXP, (R_xlen_t)refusals));
    for (size_t at = 0, to = 0; at < many; at++) {
        int len = (int)(items[at].to - items[at].from);
        if (what[at] == REFUSED) SET_STRING_ELT(texts, (R_xlen_t)to++, mkCharLen(input + items[at].from, len));
    }
    UNPROTECT(1);
    return texts;
}

/* A replay as data: the fault, the register, and columns: of each record, what replayed() sets; the text of each
 * refused one; and for each reading its reader, majority and board. */
static SEXP r_replay(SEXP text, SEXP readers, SEXP journal) {
    static const char *const parts[] = {"fault", "fault_record", "register", "record", "what",  "number",
                                        "texts", "reader",       "majority", "board",  "boards"};
    struct board_entry entries[BOARD_MEMBERS];
    size_t members = 0, reads = 0, many = 0;
    uint32_t record = 0, limits[] = {one_number(readers), one_number(journal)};
    check_vector(text, RAWSXP, -1);
    size_t len = (size_t)XLENGTH(text), items_len = len > BOARD_INPUT_BYTES ? 1 : len / LEAST_RECORD + 1;
    struct board_item *items = (struct board_item *)R_alloc(items_len, sizeof *items);
    uint8_t fault =
        board_script(RAW(text), len, limits[0], entries, BOARD_MEMBERS, &members, items, items_len, &many, &record);
    if (many > items_len) error("more records than bytes");
    for (size_t at = 0; at < many; at++) reads += items[at].command.kind == BOARD_READ;
    SEXP list = PROTECT(named_list(11, parts));
    SET_VECTOR_ELT(list, 0, ScalarInteger(fault));
    SET_VECTOR_ELT(list, 1, ScalarInteger((int)record));
    for (int at = 3; at < 6; at++) new_item(list, at, INTSXP, (R_xlen_t)many);
    for (int at = 7; at < 10; at++) new_item(list, at, INTSXP, (R_xlen_t)reads);
    struct replay it = {.boards = new_item(list, 10, VECSXP, (R_xlen_t)reads)};
    if (fault == BOARD_DONE || many > 0 || record > members + OPENING_RECORDS) {
        SET_VECTOR_ELT(list, 2, new_handle(&it.handle));
        uint8_t refusal = checked(board_register_start(entries, members, limits[1], it.handle), it.handle);
        if (refusal == BOARD_DONE) refusal = replay_items(&it, items, many, list);
        weigh(it.handle);
        if (refusal != BOARD_DONE) {
            UNPROTECT(1);
            return ScalarInteger(refusal);
        }
    }
    SET_VECTOR_ELT(list, 6, refused_texts((const char *)RAW(text), items, many, INTEGER(VECTOR_ELT(list, 4))));
    SET_VECTOR_ELT(list, 10, lengthgets(it.boards, it.len));
    UNPROTECT(1);
    return list;
}

/* The text of a replay, the number of its fault, and that of the fault's record. */
static SEXP r_replay_text(SEXP text, SEXP readers, SEXP journal) {
    static const char *const parts[] = {"text", "fault", "record"};
    uint64_t length = 0, written = 0;
    uint32_t record = 0, limits[] = {one_number(readers), one_number(journal)};
    check_vector(text, RAWSXP, -1);
    size_t len = (size_t)XLENGTH(text);
    uint8_t fault = board_replay_length(RAW(text), len, limits[0], limits[1], &length, &record);
    if (length > INT_MAX) error("the text has %.0f bytes: a text of R has at most %d", (double)length, INT_MAX);
    char *out = R_alloc((size_t)length + 1, 1);
    fault = board_replay(RAW(text), len, limits[0], limits[1], (uint8_t *)out, (size_t)length, &written, &record);
    SEXP list = PROTECT(named_list(3, parts));
    SET_VECTOR_ELT(list, 0, ScalarString(mkCharLen(out, (int)written)));
    SET_VECTOR_ELT(list, 1, ScalarInteger(fault));
    SET_VECTOR_ELT(list, 2, ScalarInteger((int)record));
    UNPROTECT(1);
    return list;
}

/* The library. */

static SEXP r_words(SEXP given) {
    check_vector(given, STRSXP, MAJORITIES);
    if (words != NULL) R_ReleaseObject(words);
    R_PreserveObject(words = given);
    return R_NilValue;
}

static SEXP r_version(void) { return mkString(board_version()); }

/* Whether this processor has what the library is compiled for: a prebuilt one needs x86-64-v2. */
static SEXP r_processor(void) {
#if defined(BOARD_PREBUILT) && defined(__x86_64__) && (defined(__GNUC__) || defined(__clang__))
    __builtin_cpu_init();
    return ScalarLogical(__builtin_cpu_supports("sse4.2") && __builtin_cpu_supports("popcnt"));
#else
    return ScalarLogical(1);
#endif
}

#define CALL(name, arguments) \
    { #name, (DL_FUNC)&r_##name, arguments }
static const R_CallMethodDef CALLS[] = {
    CALL(indices, 3),     CALL(weights, 4),   CALL(members, 6),  CALL(many, 5),        CALL(is_there, 1),
    CALL(start, 3),       CALL(apply, 6),     CALL(publish, 1),  CALL(counts, 4),      CALL(state, 1),
    CALL(sheet, 1),       CALL(rows, 1),      CALL(entries, 1),  CALL(commands, 1),    CALL(copy, 2),
    CALL(undo, 3),        CALL(submit, 2),    CALL(check, 2),    CALL(from_script, 2), CALL(replay, 3),
    CALL(replay_text, 3), CALL(names, 1),     CALL(openings, 2), CALL(set_names, 2),   CALL(words, 1),
    CALL(version, 0),     CALL(processor, 0), {NULL, NULL, 0}};

void R_init_votingboard(DllInfo *library) {
    R_registerRoutines(library, NULL, CALLS, NULL, NULL);
    R_useDynamicSymbols(library, FALSE);
    R_forceSymbols(library, TRUE);
}
