/* Counts many sheets on several threads. Nothing here calls R, which runs on one thread. Nothing here is proved. */
#ifdef __linux__
#define _GNU_SOURCE /* for CPU_COUNT */
#include <sched.h>
#endif
#include "many.h"

#include <stdatomic.h>
#ifndef _WIN32
#include <pthread.h>
#include <signal.h>
#include <unistd.h>
#endif

enum { MAJORITIES = 4 };

/* Sheets to be counted, and the number of those that threads have taken. */
struct job {
    const struct counting *counting;
    atomic_size_t taken;
};

struct worker {
    struct job *job;
    struct board_room *room;
};

struct board_counts *by_majority(struct board_all_counts *all, uint32_t majority) {
    struct board_counts *const list[MAJORITIES] = {&all->half, &all->seventy, &all->eighty_five, &all->quorum};
    return list[majority];
}

/* Counts a sheet. One call by all four majorities takes less time than four, and more than three. */
static uint8_t count(const uint64_t *sheet, uint32_t asked, struct board_room *room, struct board_all_counts *all) {
    uint8_t refusal = BOARD_DONE;
    if (asked == (1u << MAJORITIES) - 1) return board_all_counts_of_sheet(sheet, BOARD_SHEET_WORDS, room, all);
    for (uint32_t majority = 0; majority < MAJORITIES && refusal == BOARD_DONE; majority++)
        if (asked >> majority & 1)
            refusal = board_counts_of_sheet(sheet, BOARD_SHEET_WORDS, majority, room, by_majority(all, majority));
    return refusal;
}

/* Takes one sheet after the other, until all are taken. */
static void *work(void *given) {
    const struct worker *own = given;
    struct job *job = own->job;
    const struct counting *it = job->counting;
    for (size_t at = atomic_fetch_add(&job->taken, 1); at < it->len; at = atomic_fetch_add(&job->taken, 1))
        it->found[at].refusal = count(it->sheets[at], it->asked, own->room, &it->found[at].all);
    return NULL;
}

#ifdef _WIN32
/* On Windows R's thread counts alone. */
int most_threads(void) { return 1; }

void count_sheets(const struct counting *counting, struct board_room *rooms, int threads) {
    struct job job = {.counting = counting};
    struct worker own = {&job, rooms};
    (void)threads;
    work(&own);
}
#else
int most_threads(void) {
#ifdef __linux__
    cpu_set_t set;
    long found = sched_getaffinity(0, sizeof set, &set) == 0 ? CPU_COUNT(&set) : 1;
#else
    long found = sysconf(_SC_NPROCESSORS_ONLN);
#endif
    return found < 1 ? 1 : found < MOST_THREADS ? (int)found : MOST_THREADS;
}

/* The other threads handle no signals, because R's handlers are for its own thread. A thread that can't be started has
 * its sheets counted by the others. */
void count_sheets(const struct counting *counting, struct board_room *rooms, int threads) {
    struct job job = {.counting = counting};
    struct worker workers[MOST_THREADS];
    pthread_t ids[MOST_THREADS];
    int is_running[MOST_THREADS];
    sigset_t all, before;
    sigfillset(&all);
    pthread_sigmask(SIG_SETMASK, &all, &before);
    for (int at = 0; at < threads; at++) {
        workers[at] = (struct worker){&job, &rooms[at]};
        is_running[at] = at > 0 && pthread_create(&ids[at], NULL, work, &workers[at]) == 0;
    }
    pthread_sigmask(SIG_SETMASK, &before, NULL);
    work(&workers[0]);
    for (int at = 0; at < threads; at++)
        if (is_running[at]) pthread_join(ids[at], NULL);
}
#endif
