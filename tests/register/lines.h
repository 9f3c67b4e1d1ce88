/* The lines of `board replay`, written from what the calls of board.h return. */
#ifndef LINES_H
#define LINES_H

#include <inttypes.h>
#include <stdio.h>

#include "board.h"

static const char *const majorities[] = {"half", "70", "85", "quorum"};

/* A fraction, or `-` if it is over 0. */
static void write_fraction(FILE *to, uint64_t swings, uint64_t over) {
    if (over) fprintf(to, ",%" PRIu64 "/%" PRIu64, swings, over);
    else fputs(",-", to);
}

/* The line of a chair, whose board has `all` swings. */
static void write_chair(FILE *to, const struct board_chair *row, const struct board_counts *counts, uint64_t all) {
    fprintf(to, "chair,%" PRIu64 ",%" PRIu64 ",%" PRIu64, row->chair, row->weight, row->swings);
    write_fraction(to, row->swings, counts->coalitions / 2);
    write_fraction(to, row->swings, all);
    write_fraction(to, row->swings, counts->omega);
    write_fraction(to, row->swings, counts->coalitions - counts->omega);
    fputc('\n', to);
}

/* The lines of a reading. */
static void write_reading(FILE *to, uint32_t reader, uint32_t front, uint32_t majority,
                          const struct board_counts *counts) {
    uint64_t all = 0;
    for (uint64_t at = 0; at < counts->chairs; at++) all += counts->rows[at].swings;
    fprintf(to, "reading,%" PRIu32 ",%" PRIu32 ",%s,%" PRIu64, reader, front, majorities[majority], counts->chairs);
    fprintf(to, ",%" PRIu64 ",%" PRIu64 ",%" PRIu64, counts->quota, counts->cast, counts->total);
    fprintf(to, ",%" PRIu64 ",%" PRIu64 "\n", counts->omega, counts->coalitions);
    for (uint64_t at = 0; at < counts->chairs; at++) write_chair(to, &counts->rows[at], counts, all);
}

#endif
