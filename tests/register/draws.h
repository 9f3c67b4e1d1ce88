/* Random registers and commands, the same for the same seed: legal ones, refused ones, and structs with bad parts. */
#ifndef DRAWS_H
#define DRAWS_H

#include "model.h"

/* What a seed draws from: the number of members at first, the limit of the journal, codes and chairs. */
struct draw {
    uint64_t state;
    size_t entries;
    uint32_t journal, codes, chairs;
};

static uint64_t lot(struct draw *draw, uint64_t below) {
    draw->state ^= draw->state << 13;
    draw->state ^= draw->state >> 7;
    draw->state ^= draw->state << 17;
    return (draw->state >> 11) % below;
}

/* The draw of a seed, for this many commands: usual, with 256 members and few other codes, with a journal that becomes
 * full, with few members and chairs, and so again with the next seeds. */
static struct draw draw_of(uint64_t seed, uint32_t many) {
    static const struct draw draws[] = {
        {0, 120, BOARD_COMMANDS, 420, BOARD_CHAIRS},
        {0, BOARD_MEMBERS, BOARD_COMMANDS, BOARD_MEMBERS + 14, BOARD_CHAIRS},
        {0, 20, 1, 60, 8},
        {0, 0, BOARD_COMMANDS, 4, 2},
    };
    struct draw found = draws[seed % (sizeof draws / sizeof *draws)];
    found.state = seed * 0x9E3779B97F4A7C15u + 0x2545F4914F6CDD1Du;
    if (found.journal == 1) found.journal = many / 10 + 1;
    return found;
}

/* The code with a number. */
static void put_code(char *code, uint64_t number) {
    code[0] = (char)('A' + number / 676 % 26);
    code[1] = (char)('A' + number / 26 % 26);
    code[2] = (char)('A' + number % 26);
    code[3] = 0;
}

static uint64_t some_votes(struct draw *draw) {
    switch (lot(draw, 8)) {
    case 0: return 0;
    case 1: return MOST_VOTES - lot(draw, 2);
    case 2: return lot(draw, MOST_VOTES + 1);
    default: return lot(draw, 100000);
    }
}

static void draw_entries(struct draw *draw, struct board_entry *entries) {
    for (size_t at = 0; at < draw->entries; at++) {
        memset(&entries[at], 0, sizeof entries[at]);
        put_code(entries[at].code, at);
        entries[at].votes = some_votes(draw);
    }
}

/* Puts a bad part into a command. */
static void spoil(struct draw *draw, struct board_command *command) {
    static const char codes[][4] = {"",
                                    "A",
                                    "AB",
                                    "ABa",
                                    "AB1",
                                    "aBC",
                                    "A\0C",
                                    "[AA",
                                    "A@A",
                                    "AA\xC3",
                                    {'A', 'A', 'A', 'A'},
                                    {'A', 'A', 'A', ' '},
                                    {'\0', 'A', 'A', 'A'}};
    static const uint64_t chairs[] = {
        0,         BOARD_CHAIRS + 1, 255, 256, 257, ((uint64_t)1 << 32) + 1, ((uint64_t)1 << 40) + 1, (uint64_t)1 << 63,
        UINT64_MAX};
    static const uint32_t kinds[] = {BOARD_PUBLISH, BOARD_READ, 10, 255, 256, 1u << 31, UINT32_MAX};
    switch (lot(draw, 4)) {
    case 0: command->kind = kinds[lot(draw, sizeof kinds / sizeof *kinds)]; break;
    case 1: memcpy(command->code, codes[lot(draw, sizeof codes / sizeof *codes)], sizeof command->code); break;
    case 2: command->chair = chairs[lot(draw, sizeof chairs / sizeof *chairs)]; break;
    default: command->votes = MOST_VOTES + lot(draw, 3) + (lot(draw, 4) ? 0 : UINT64_MAX / 2);
    }
}

/* A command. The parts that its kind doesn't have are at random too. */
static struct board_command draw_command(struct draw *draw) {
    static const uint8_t kinds[] = {BOARD_OPEN,    BOARD_OPEN,     BOARD_CLOSE,   BOARD_MOVE,  BOARD_MOVE,
                                    BOARD_MOVE,    BOARD_MOVE,     BOARD_MOVE,    BOARD_VOTES, BOARD_VOTES,
                                    BOARD_SUSPEND, BOARD_RESTORE,  BOARD_RESTORE, BOARD_ADMIT, BOARD_ADMIT,
                                    BOARD_ADMIT,   BOARD_WITHDRAW, BOARD_WITHDRAW};
    struct board_command command = {.kind = kinds[lot(draw, sizeof kinds)]};
    put_code(command.code, lot(draw, draw->codes));
    command.chair = command.kind == BOARD_MOVE && lot(draw, 3) == 0 ? 0 : 1 + lot(draw, draw->chairs);
    command.votes = some_votes(draw);
    if (lot(draw, 10) == 0) spoil(draw, &command);
    return command;
}

#endif
