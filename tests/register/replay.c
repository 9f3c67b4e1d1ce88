/* Replays inputs as data: board_script reads the members and the records of a script, and a register carries them out.
 * Writes the lines that `board replay` prints.
 *
 *     replay READERS JOURNAL    replays standard input, and ends as the program does
 *     replay                    replays inputs one after another: reads them, and writes their texts, in the form of
 *                               tests/targets/replays.c */
#define _POSIX_C_SOURCE 200809L
#include <stdlib.h>
#include <string.h>

#include "lines.h"

static struct board_room room;
static struct board_entry members[BOARD_MEMBERS];

/* How a run ended: the number of its fault and of the fault's record, each 0 if there is none. */
struct end {
    uint8_t fault;
    uint32_t record;
};

/* The records of a script, in memory that belongs to the caller. */
struct script {
    size_t members, items;
    struct board_item *list;
    struct end end;
};

static void *block_of(size_t bytes) {
    void *block = malloc(bytes ? bytes : 1);
    if (!block) exit(99);
    return block;
}

/* Reads a script: once to count its records, and again to have them. */
static struct script script_of(const uint8_t *input, size_t len, uint32_t readers) {
    struct script found;
    size_t again;
    struct end *end = &found.end;
    end->fault =
        board_script(input, len, readers, members, BOARD_MEMBERS, &found.members, NULL, 0, &found.items, &end->record);
    found.list = block_of(found.items * sizeof *found.list);
    struct end first = *end;
    end->fault =
        board_script(input, len, readers, NULL, 0, &found.members, found.list, found.items, &again, &end->record);
    if (again != found.items || end->fault != first.fault || end->record != first.record) exit(99);
    return found;
}

/* Carries out a command, and writes its line. Returns BOARD_OUT_OF_MEMORY, or BOARD_DONE. */
static uint8_t command(FILE *to, struct board_register *handle, const struct board_item *item) {
    uint32_t accepted;
    uint8_t refusal = board_register_apply(handle, &item->command, &accepted);
    if (refusal == BOARD_OUT_OF_MEMORY) return refusal;
    if (refusal == BOARD_DONE) fprintf(to, "accepted,%" PRIu32 "\n", accepted);
    else fprintf(to, "refused,%d,%s\n", refusal, board_refusal_name(refusal));
    return BOARD_DONE;
}

/* Carries out a record of a script, and writes its lines. Returns BOARD_OUT_OF_MEMORY, or BOARD_DONE. */
static uint8_t carry_out(FILE *to, struct board_register *handle, const struct board_item *item) {
    uint32_t published = board_register_published(handle);
    struct board_counts counts;
    switch (item->command.kind) {
    case BOARD_PUBLISH:
        if (board_register_publish(handle, &published) != BOARD_DONE) exit(99);
        fprintf(to, "published,%" PRIu32 "\n", published);
        return BOARD_DONE;
    case BOARD_READ:
        if (board_register_read(handle, item->majority, &room, &counts) != BOARD_DONE) exit(99);
        write_reading(to, item->reader, published, item->majority, &counts);
        return BOARD_DONE;
    default: return command(to, handle, item);
    }
}

/* Carries out the records of a script whose opening is sound. */
static struct end follow(FILE *to, struct board_register *handle, const struct script *script, uint32_t journal) {
    uint8_t fault = board_register_start(members, script->members, journal, handle);
    for (size_t at = 0; at < script->items && fault == BOARD_DONE; at++) {
        fault = carry_out(to, handle, &script->list[at]);
    }
    return fault == BOARD_DONE ? script->end : (struct end){fault, 0};
}

/* Replays an input, and writes its lines. */
static struct end replay(FILE *to, const uint8_t *input, size_t len, uint32_t readers, uint32_t journal) {
    struct board_register handle = {0};
    /* A bad limit comes before every fault of the input. */
    struct end end = {board_register_start(NULL, 0, journal, &handle), 0};
    if (end.fault == BOARD_DONE) {
        struct script script = script_of(input, len, readers);
        /* A fault before the script leaves it without records. */
        int is_sound = script.end.fault == BOARD_DONE || script.items > 0;
        end = is_sound ? follow(to, &handle, &script, journal) : script.end;
        free(script.list);
    }
    board_register_free(&handle);
    if (end.fault) fprintf(to, "fault,%" PRIu32 ",%s\n", end.record, board_refusal_name(end.fault));
    return end;
}

/* Replays standard input, to standard output. */
static int replay_one(uint32_t readers, uint32_t journal) {
    /* One byte more than an input may have. */
    uint8_t *input = block_of(BOARD_INPUT_BYTES + 1);
    size_t len = fread(input, 1, BOARD_INPUT_BYTES + 1, stdin);
    struct end end = replay(stdout, input, len, readers, journal);
    free(input);
    if (end.fault) fprintf(stderr, "board: %s\n", board_refusal_name(end.fault));
    return end.fault != BOARD_DONE;
}

/* Replays inputs until there are no more. Each begins with four words: its length, the readers, the limit of the
 * journal, and the room for its text, which is not needed here. */
static int replay_all(void) {
    uint64_t given[4];
    while (fread(given, sizeof given, 1, stdin) == 1) {
        uint8_t *input = block_of(given[0]);
        char *text = NULL;
        size_t len = 0;
        if (fread(input, 1, given[0], stdin) != given[0]) return 99;
        FILE *to = open_memstream(&text, &len);
        struct end end = replay(to, input, given[0], (uint32_t)given[1], (uint32_t)given[2]);
        uint64_t written = (fclose(to), len);
        putchar(end.fault);
        fwrite(&end.record, sizeof end.record, 1, stdout);
        fwrite(&written, sizeof written, 1, stdout);
        fwrite(text, 1, len, stdout);
        free(text);
        free(input);
    }
    return 0;
}

int main(int many, char **words) {
    if (many == 1) return replay_all();
    if (many != 3) return 2;
    return replay_one((uint32_t)strtoul(words[1], NULL, 10), (uint32_t)strtoul(words[2], NULL, 10));
}
