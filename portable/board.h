/* The counts of a voting board: which weights and sizes win, the number of winning coalitions,
 * and the swings of each chair; a register of members, votes and chairs, the script of a register
 * as data, and its complete replay as text; the trace of a schedule as text.
 *
 * Each call with a result returns BOARD_DONE after it has done what it was asked. Any other result
 * is the number of a refusal, and then everything is unchanged: the register, and what the call
 * writes. board_script, board_replay, board_replay_length, board_trace and board_trace_length also
 * write after a refusal, as they say.
 *
 * A call that counts builds its lists in the board_room that the caller lends. The contents of the
 * room before a call have no effect, and its contents after a call, also after a refusal, have no
 * meaning.
 *
 * A register's memory is allocated with malloc and realloc by board_register_start,
 * board_register_apply and board_register_copy, and freed by board_register_free, or where a
 * handle gets another register. board_script, board_replay, board_replay_length, board_trace and
 * board_trace_length free what they allocate before they return. No other call allocates memory.
 * If malloc or realloc returns no memory, the call returns BOARD_OUT_OF_MEMORY.
 *
 * A call keeps no state but that of its register, starts no thread and takes no lock. Calls on
 * several threads are independent if each has its own handle, room, counts and other places to
 * write to.
 *
 * The results of a call and what it writes are proved to be what this header says, except for the
 * calls of names and texts at its end; portable/board.c, the same calls in C, is made from what is
 * proved in steps that are tested. That memory is freed, and that BOARD_OUT_OF_MEMORY comes
 * only where it is refused, is tested and not proved. Nothing checks the callers, who must ensure
 * the following:
 *
 * - `words`, `weights`, `members`, `entries`, `items`, `input` and `out` point to as many items as
 *   the number after them says, `room` to a board_room, `handle` to a board_register as described
 *   there, and every other pointer to what the call reads or writes. No pointer is null, except
 *   that of a list of 0 items.
 * - A length that no list can have is refused as BOARD_BAD_SHEET, and then nothing is read: of
 *   `words` any length except 34, of `weights` any above 32, up to SIZE_MAX. Of `members` and
 *   `entries` all items may be read. (Lengths that no memory can hold, and null pointers, are
 *   tested and not proved.)
 * - Each pointer is aligned as its type requires. Bytes between the parts of a struct have no
 *   meaning.
 * - No two places that a call is given overlap, except two that it only reads, and during the call
 *   no other thread reads or writes what it writes, or writes what it reads.
 * - The thread has 96 KB of stack for a count or a call on a register, and 256 KB for
 *   board_script, board_replay, board_replay_length, board_trace and board_trace_length. A
 *   board_room is 1 MiB, so it belongs in static memory or on the heap.
 */
#ifndef BOARD_H
#define BOARD_H

#include <stddef.h>
#include <stdint.h>

#ifdef __cplusplus
extern "C" {
#endif

/* The most chairs, members, commands of a journal, readers, and bytes of an input. */
enum {
    BOARD_CHAIRS = 32,
    BOARD_MEMBERS = 256,
    BOARD_COMMANDS = 1000000,
    BOARD_READERS = 4,
    BOARD_INPUT_BYTES = 4194304
};

enum { BOARD_SHEET_WORDS = 34, BOARD_ROOM_SETS = 65536, BOARD_MAJORITIES = 4, BOARD_COMMAND_TEXT = 32 };

/* A number that is aligned to 8 bytes in a struct, also where a uint64_t is aligned to 4. */
#if defined(__GNUC__) && defined(__i386__)
typedef uint64_t board_word __attribute__((aligned(8)));
#else
typedef uint64_t board_word;
#endif

/* The bytes of each struct below, for callers without a C compiler. Each is aligned to
 * BOARD_ALIGNMENT bytes. */
enum {
    BOARD_ALIGNMENT = 8,
    BOARD_CHAIR_BYTES = 24,
    BOARD_COUNTS_BYTES = 824,
    BOARD_ALL_COUNTS_BYTES = 3296,
    BOARD_MEMBER_BYTES = 24,
    BOARD_ROOM_BYTES = 1048576,
    BOARD_REGISTER_BYTES = 16,
    BOARD_ENTRY_BYTES = 16,
    BOARD_COMMAND_BYTES = 24,
    BOARD_MEMBER_ROW_BYTES = 24,
    BOARD_ITEM_BYTES = 48
};

/* Results: BOARD_DONE, and the refusals and faults of docs/FORMATS.md that calls return. */
enum {
    BOARD_DONE = 0,
    BOARD_CHAIR_OPEN = 1,        /* the chair is open already */
    BOARD_CHAIR_NOT_OPEN = 2,    /* the chair is not open */
    BOARD_CHAIR_HAS_MEMBERS = 3, /* the chair has members, suspended ones counted */
    BOARD_UNKNOWN_MEMBER = 4,    /* no member has this code */
    BOARD_MEMBER_SUSPENDED = 5,  /* the member's voting rights are suspended */
    BOARD_ALREADY_THERE = 6,     /* the member is there already */
    BOARD_ALREADY_SUSPENDED = 7, /* the member is suspended already */
    BOARD_NOT_SUSPENDED = 8,     /* the member is not suspended */
    BOARD_JOURNAL_FULL = 9,      /* as many commands as the journal limit were accepted */
    BOARD_OUT_OF_MEMORY = 10,    /* malloc or realloc failed */
    BOARD_DUPLICATE_MEMBER = 11, /* two members have the same code */
    BOARD_TOO_MANY_MEMBERS = 12, /* there are, or would be, more than 256 members */
    BOARD_BAD_LIMIT = 13,        /* the readers or the limit of the journal are out of range */
    BOARD_BAD_CHAIR = 14,        /* a chair's number is not from 1 to 32 */
    BOARD_BAD_MEMBER = 15,       /* a member's code is not three ASCII capitals */
    BOARD_VOTES_TOO_LARGE = 16,  /* a member has more than 2^40 votes */
    BOARD_BAD_RECORD = 17,       /* no majority, or no command, has this number; a bad record */
    BOARD_WRITE_FAULT = 20,      /* of board_replay, board_trace: the text is longer than its room */
    BOARD_BAD_HEADER = 21,       /* the first record is not 'member,votes' */
    BOARD_BAD_READER = 22,       /* there is no reader of this number */
    BOARD_MEMBER_EXISTS = 25,    /* a member has this code already */
    BOARD_MEMBER_SEATED = 26,    /* the member sits in a chair */
    BOARD_NO_SCRIPT = 28,        /* the input ends before the record 'script' */
    BOARD_TOO_LONG = 29,         /* the input has more than 4,194,304 bytes */
    BOARD_BAD_SHEET = 32,        /* the words, weights or members are not a board's */
    BOARD_NO_REGISTER = 34,      /* the handle has no register */
    BOARD_BAD_INDEX = 35,        /* there is no item at this index */
    BOARD_TRAPPED = 255          /* of portable/board.c: the code came to what its proof rules out */
};

/* Majorities. */
enum {
    BOARD_HALF = 0,        /* more than half of the votes cast, if all open chairs vote */
    BOARD_SEVENTY = 1,     /* at least one vote, and at least 70 per cent of the total */
    BOARD_EIGHTY_FIVE = 2, /* at least one vote, and at least 85 per cent of the total */
    BOARD_QUORUM = 3       /* more than half of the open chairs, with at least half of the total */
};

/* An open chair. */
struct board_chair {
    board_word chair;  /* its number, from 1 to 32 */
    board_word weight; /* its weight, in votes */
    board_word swings; /* its swings: sets of other open chairs that lose, and that win with it */
};

/* The least weight and size that win on a board, and its coalitions: 824 bytes. */
struct board_counts {
    board_word quota;                      /* the least weight that can win, in votes */
    board_word least_size;                 /* the least size that can win; 0 if the majority requires none */
    board_word cast;                       /* the votes of all open chairs together */
    board_word total;                      /* the total voting power, in votes */
    board_word chairs;                     /* the number of open chairs */
    board_word omega;                      /* the number of winning coalitions */
    board_word coalitions;                 /* the number of all coalitions: 2^chairs */
    struct board_chair rows[BOARD_CHAIRS]; /* open chairs by number, then zeros */
};

/* The counts by each majority. */
struct board_all_counts {
    struct board_counts half;
    struct board_counts seventy;
    struct board_counts eighty_five;
    struct board_counts quorum;
};

/* A member. */
struct board_member {
    board_word votes;
    board_word chair;     /* the number of its chair, from 1 to 32, or 0 for a member in no chair */
    board_word suspended; /* 0 for a member that votes, any other number for a suspended one */
};

/* Memory for the lists of a call: 1,048,576 bytes, aligned to 8. */
struct board_room {
    board_word left[BOARD_ROOM_SETS];
    board_word right[BOARD_ROOM_SETS];
};

/* The counts of a sheet by a majority. `words` are its 34 words: for each chair 0 if it is
 * closed, else its weight plus 1; the total; the number of accepted commands. The weights add up
 * to at most the total, the total is at most 2^48, and the commands are at most 1,000,000. Other
 * words are refused as BOARD_BAD_SHEET. Otherwise a number of no majority is refused as
 * BOARD_BAD_RECORD. */
uint8_t board_counts_of_sheet(const uint64_t *words, size_t len, uint32_t majority, struct board_room *room,
                              struct board_counts *counts);

/* The counts of a sheet by each majority, from lists that are built once. Words that are not a
 * sheet's are refused as BOARD_BAD_SHEET. */
uint8_t board_all_counts_of_sheet(const uint64_t *words, size_t len, struct board_room *room,
                                  struct board_all_counts *counts);

/* The counts of a board without a register: chairs 1, 2 and so on are open, with these weights in
 * votes, and the others are closed. There are at most 32 weights, and the total, in votes, is at
 * least their sum and at most 2^48. Other weights and totals are refused as BOARD_BAD_SHEET.
 * Otherwise a number of no majority is refused as BOARD_BAD_RECORD. */
uint8_t board_counts_of_weights(const uint64_t *weights, size_t len, uint64_t total, uint32_t majority,
                                struct board_room *room, struct board_counts *counts);

/* The counts of a board that is given by its members, in any order. Chair k is open if bit k - 1
 * of `open_chairs` is set or a member sits in it, suspended or not. Its weight is the votes of
 * its members that are not suspended. The total is the votes of all members that are not
 * suspended, in a chair or in none. A chair above 32 and a total above 2^48 are refused as
 * BOARD_BAD_SHEET. Otherwise a number of no majority is refused as BOARD_BAD_RECORD. */
uint8_t board_counts_of_members(const struct board_member *members, size_t len, uint32_t open_chairs, uint32_t majority,
                                struct board_room *room, struct board_counts *counts);

/* A handle, through which a program calls a register. Its words are 0 at first, as in
 *
 *     struct board_register handle = {0};
 *
 * and from then on only the library changes them. A copy of these words is not a second handle,
 * and must not be passed to a call: board_register_copy copies a register. (A handle may move to
 * another place, where the old one is used no more.) One call at a time may run on a handle, also
 * of those that only read. Between calls it may go to another thread, which must see what was done
 * before, as after a lock or a join.
 *
 * board_register_start puts a register into a handle, and board_register_free takes it out. Calls
 * on a handle without a register do nothing: they return BOARD_NO_REGISTER, or 0 if they return a
 * number of something. So a second board_register_free does no harm, nor does one of a handle
 * whose words are 0. */
struct board_register {
    void *at; /* what is there belongs to the library */
#if UINTPTR_MAX < UINT64_MAX
    uint32_t high; /* 0 */
#endif
    board_word state; /* 1 if the handle has a register, and 0 if not */
};

/* A member with which a register starts. */
struct board_entry {
    char code[4];     /* three capitals and a 0 */
    board_word votes; /* at most 2^40 */
};

/* Kinds of commands; and of the other records of a script, which are no commands. */
enum {
    BOARD_OPEN = 0,     /* open a closed chair: chair */
    BOARD_CLOSE = 1,    /* close an open chair without members: chair */
    BOARD_MOVE = 2,     /* move a member to an open chair, or to none: code, chair */
    BOARD_VOTES = 3,    /* set the votes of a member: code, votes */
    BOARD_SUSPEND = 4,  /* suspend a member's votes: code */
    BOARD_RESTORE = 5,  /* end a suspension: code */
    BOARD_ADMIT = 6,    /* add a member, in no chair: code, votes */
    BOARD_WITHDRAW = 7, /* remove a member that is in no chair: code */
    BOARD_PUBLISH = 8,  /* publish all accepted commands */
    BOARD_READ = 9      /* read the published sheet: reader, majority */
};

/* A command. Only the parts that its kind names above are looked at, and in a command that the
 * library writes the others are 0. */
struct board_command {
    uint32_t kind;    /* BOARD_OPEN to BOARD_WITHDRAW */
    char code[4];     /* three capitals and a 0 */
    board_word chair; /* from 1 to 32; of BOARD_MOVE also 0, no chair */
    board_word votes; /* at most 2^40 */
};

/* A member of a register. */
struct board_member_row {
    char code[4];       /* three capitals and a 0 */
    uint32_t suspended; /* 1 for a suspended member, and 0 for any other */
    board_word chair;   /* the number of its chair, or 0 for a member in none */
    board_word votes;   /* its votes, also while it is suspended */
};

/* Starts a register of these members in the handle, with an empty journal that accepts at most
 * `journal` commands, from 1 to 1,000,000. A register that was in the handle before is freed. What
 * readers see is the opening: these members, in no chair, and no chair open.
 *
 * Refused as BOARD_BAD_MEMBER or BOARD_VOTES_TOO_LARGE, for the first entry with a bad code or
 * else too many votes; otherwise as BOARD_BAD_LIMIT, BOARD_TOO_MANY_MEMBERS or
 * BOARD_DUPLICATE_MEMBER, whichever applies first; or as BOARD_OUT_OF_MEMORY. The handle then has
 * the register that it had before, if it had one. */
uint8_t board_register_start(const struct board_entry *entries, size_t len, uint32_t journal,
                             struct board_register *handle);

/* Carries out a command, and sets *accepted to the number of accepted commands, including this
 * one.
 *
 * Refused as BOARD_NO_REGISTER; otherwise as BOARD_BAD_RECORD, if no command is of this kind;
 * otherwise as BOARD_BAD_MEMBER for the code, or else BOARD_BAD_CHAIR or BOARD_VOTES_TOO_LARGE, of
 * the parts that the kind has; otherwise by the register, as docs/FORMATS.md lists for each
 * command, BOARD_JOURNAL_FULL last; or as BOARD_OUT_OF_MEMORY. */
uint8_t board_register_apply(struct board_register *handle, const struct board_command *command, uint32_t *accepted);

/* The result that board_register_apply would return, except BOARD_OUT_OF_MEMORY. Carries out
 * nothing. */
uint8_t board_register_check(const struct board_register *handle, const struct board_command *command);

/* Publishes all accepted commands, and sets *published to their number. Refused as
 * BOARD_NO_REGISTER. */
uint8_t board_register_publish(struct board_register *handle, uint32_t *published);

/* The number of accepted commands; of published commands; of members; and of the members with
 * which the register started. Each is 0 for a handle without a register. */
uint32_t board_register_accepted(const struct board_register *handle);
uint32_t board_register_published(const struct board_register *handle);
size_t board_register_members(const struct board_register *handle);
size_t board_register_entries(const struct board_register *handle);

/* The member at an index, counted from 0 in the order of entry; the member at an index of those
 * with which the register started; and the accepted command at an index, with which
 * board_register_apply carries out the same command again. Refused as BOARD_NO_REGISTER, and as
 * BOARD_BAD_INDEX if there are at most `index` of them. */
uint8_t board_register_member_at(const struct board_register *handle, size_t index, struct board_member_row *row);
uint8_t board_register_entry_at(const struct board_register *handle, size_t index, struct board_entry *entry);
uint8_t board_register_command_at(const struct board_register *handle, size_t index, struct board_command *command);

/* Writes the 34 words of the register's sheet, which board_counts_of_sheet takes, to `words`.
 * Refused as BOARD_NO_REGISTER. */
uint8_t board_register_sheet(const struct board_register *handle, uint64_t *words);

/* The counts of the register's sheet by a majority, and by each of them, from lists that are built
 * once. Refused as BOARD_NO_REGISTER; otherwise the first as BOARD_BAD_RECORD, if no majority has
 * this number. */
uint8_t board_register_counts(const struct board_register *handle, uint32_t majority, struct board_room *room,
                              struct board_counts *counts);
uint8_t board_register_all_counts(const struct board_register *handle, struct board_room *room,
                                  struct board_all_counts *counts);

/* The counts of the sheet after the published commands, which is what a reader sees: before the
 * first board_register_publish that of the opening. Refused as board_register_counts. */
uint8_t board_register_read(const struct board_register *handle, uint32_t majority, struct board_room *room,
                            struct board_counts *counts);

/* Puts a copy of the register as it was after its first `accepted` commands into another handle;
 * if it has accepted no more, a copy of the whole register. Those of its commands that are
 * published here are published there: if more than `accepted` are published here, all of them are
 * published there, and board_register_read counts the copy after them. A register that was in the
 * other handle is freed. The copy shares nothing with the register.
 *
 * Refused as BOARD_NO_REGISTER, or as BOARD_OUT_OF_MEMORY: *copy then has the register that it had
 * before, if it had one. */
uint8_t board_register_copy(const struct board_register *handle, uint32_t accepted, struct board_register *copy);

/* Takes the register back, in place, to what it was after its first `accepted` commands; if it has
 * accepted no more, nothing is taken back. Those of its commands that are published stay published,
 * but no more than the first `published`. Needs no memory. Refused as BOARD_NO_REGISTER. */
uint8_t board_register_undo(struct board_register *handle, uint32_t accepted, uint32_t published);

/* Frees the register of a handle, which then has none. */
void board_register_free(struct board_register *handle);

/* A record of a script: a command, as board_register_apply takes it, or what is no command. Parts
 * that its kind does not have are 0. */
struct board_item {
    struct board_command command; /* of kind BOARD_OPEN to BOARD_READ */
    uint32_t number;              /* the record's number, counted from 1 over all of the input */
    uint32_t reader;              /* of BOARD_READ: the reader, from 1 */
    uint32_t majority;            /* of BOARD_READ: a majority, as BOARD_HALF */
    uint32_t from;                /* the record's bytes are those of the input from this offset */
    uint32_t to;                  /* to this one, which is that of the first byte after them */
};

/* Reads an input of `board replay` with `readers` readers, from 1 to 4, without carrying it out.
 * Writes its members to the start of `members` and the records of its script to the start of
 * `items`, of each as many as there is room for; what comes after them is unchanged.
 * *members_count and *items_count are set to how many there are, also if there is room for fewer:
 * a call with room for 0 counts them. The records are those of docs/FORMATS.md, and an input has
 * at most 4,194,304 bytes.
 *
 * The result is BOARD_DONE, or the number of the fault that ends a replay of this input, whose
 * record is *record, counted from 1, or 0 if it has none: BOARD_BAD_LIMIT, BOARD_TOO_LONG,
 * BOARD_BAD_HEADER, BOARD_TOO_MANY_MEMBERS, BOARD_BAD_RECORD, BOARD_NO_SCRIPT,
 * BOARD_DUPLICATE_MEMBER or BOARD_BAD_READER. What comes before the fault is written and counted.
 * After BOARD_OUT_OF_MEMORY some first members and records, perhaps none, are. Commands that the
 * register refuses are no faults.
 *
 * So this is a replay as data, of an input whose opening is sound:
 *
 *     struct board_register handle = {0};
 *     uint8_t fault = board_script(input, len, 1, members, BOARD_MEMBERS, &members_count,
 *                                  items, items_room, &items_count, &record);
 *     board_register_start(members, members_count, BOARD_COMMANDS, &handle);
 *     for (size_t at = 0; at < items_count; at++) {
 *         const struct board_item *item = &items[at];
 *         if (item->command.kind == BOARD_PUBLISH)
 *             board_register_publish(&handle, &published);
 *         else if (item->command.kind == BOARD_READ)
 *             board_register_read(&handle, item->majority, &room, &counts);
 *         else
 *             refusal = board_register_apply(&handle, &item->command, &accepted);
 *     }
 *     board_register_free(&handle);
 */
uint8_t board_script(const uint8_t *input, size_t len, uint32_t readers, struct board_entry *members,
                     size_t members_len, size_t *members_count, struct board_item *items, size_t items_len,
                     size_t *items_count, uint32_t *record);

/* Replays an input as the program `board replay` does: a register that accepts at most `journal`
 * commands, from 1 to 1,000,000, and has `readers` readers, from 1 to 4, carries out the records
 * of the `len` bytes at `input`. After the call, `out` holds the lines of the run, or the prefix
 * of them that fits in `out_len` bytes; *written is the number of bytes written, and the bytes
 * after them are unchanged. The records, lines and faults are those of docs/FORMATS.md, and an
 * input has at most 4,194,304 bytes.
 *
 * The result is BOARD_DONE if no fault ended the run and `out` holds its whole text. Otherwise it
 * is the number of the fault that ended the run, and *record is the number of that fault's
 * record, counted from 1, or 0 if it has none. The last line of the text is the fault's, except
 * after BOARD_WRITE_FAULT: then the text is longer than `out_len`, and `out` holds its first
 * `out_len` bytes. After BOARD_OUT_OF_MEMORY the text is some first lines of the run, perhaps
 * none, and the line of this fault; if that line does not fit, the result is BOARD_WRITE_FAULT. */
uint8_t board_replay(const uint8_t *input, size_t len, uint32_t readers, uint32_t journal, uint8_t *out, size_t out_len,
                     uint64_t *written, uint32_t *record);

/* Sets *length to the number of bytes of the text of this replay. The result and *record are those
 * of board_replay with as much room, so the result is never BOARD_WRITE_FAULT. */
uint8_t board_replay_length(const uint8_t *input, size_t len, uint32_t readers, uint32_t journal, uint64_t *length,
                            uint32_t *record);

/* Traces an input as the program `board trace` does: one writer and `readers` readers, from 1 to 4,
 * of the two-copy machine take the steps that the records of the `len` bytes at `input` ask for,
 * and no others. The machine's register accepts at most `journal` commands, from 1 to 1,000,000.
 * After the call, `out` holds the lines of the run, or the prefix of them that fits in `out_len`
 * bytes; *written is the number of bytes written, and the bytes after them are unchanged. The
 * records, lines and faults are those of docs/FORMATS.md, and an input has at most 4,194,304
 * bytes.
 *
 * The result and *record mean what they mean for board_replay. So does the text: after a fault of
 * the run, after BOARD_WRITE_FAULT and after BOARD_OUT_OF_MEMORY. */
uint8_t board_trace(const uint8_t *input, size_t len, uint32_t readers, uint32_t journal, uint8_t *out, size_t out_len,
                    uint64_t *written, uint32_t *record);

/* Sets *length to the number of bytes of the text of this trace. The result and *record are those
 * of board_trace with as much room, so the result is never BOARD_WRITE_FAULT. */
uint8_t board_trace_length(const uint8_t *input, size_t len, uint32_t readers, uint32_t journal, uint64_t *length,
                           uint32_t *record);

/* Names and texts. None of the calls below is proved; they are tested. The strings that they return
 * are static and must not be freed. */

/* The version of the library, which is that of the program. */
const char *board_version(void);

/* The name of a refusal or a fault by its number, such as "BadSheet" for 32: the names of
 * docs/FORMATS.md. It is "" for 0 and for every other number without a name. */
const char *board_refusal_name(uint32_t number);

/* The name of a majority, as records and readings have it: "half", "70", "85" or "quorum". It is
 * "" for a number of no majority. */
const char *board_majority_name(uint32_t majority);

/* The number of the majority with this name, or BOARD_MAJORITIES, which is the number of none. */
uint32_t board_majority_number(const char *name);

/* Writes a command as a record of a script, such as "move,AAA,3", and a 0 after it, to `text`,
 * which has room for BOARD_COMMAND_TEXT bytes. Returns the length of the record, without the 0. For
 * a kind of no command the record is empty. Parts that are out of range are written as they are. */
size_t board_command_text(const struct board_command *command, char *text);

/* Writes a register as a script, which board_script and `board replay` read: the members with which
 * it started, its accepted commands, and a publication after those that are published, if there are
 * any. Writes the first `out_len` bytes of the script to `out`, without a 0, and returns the length
 * of the whole script: a call with room for 0 bytes measures it. A handle without a register has no
 * script, and the call returns 0. The limit of the journal isn't in the script. */
size_t board_register_text(const struct board_register *handle, char *out, size_t out_len);

#ifdef __cplusplus
}
#endif
#endif
