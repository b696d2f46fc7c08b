/* What the users' tests share: a heap with a thread for each of its seats, and what is to be true. */
#ifndef CREW_H
#define CREW_H

#include "covremuj.h"
#include "pauses.h"
#include "waits.h"

#include <stdio.h>
#include <stdlib.h>

/* Ends the program where the condition is false. */
#define MUST(condition) must((condition) != 0, #condition, __FILE__, __LINE__)

static inline void must(int is_true, const char *what, const char *file, int line) {
    if (!is_true) {
        fprintf(stderr, "%s:%d: not true: %s\n", file, line, what);
        exit(1);
    }
}

/* The next number of a row that looks random; the row is told by *state alone. */
static inline uint64_t random_next(uint64_t *state) {
    uint64_t x = *state += UINT64_C(0x9e3779b97f4a7c15);
    x = (x ^ (x >> 30)) * UINT64_C(0xbf58476d1ce4e5b9);
    x = (x ^ (x >> 27)) * UINT64_C(0x94d049bb133111eb);
    return x ^ (x >> 31);
}

/* What a thread does with the mutator that is its own; `thread` counts from 0. It does not end the mutator. */
typedef void crew_body(cvm_seat *seat, size_t thread, void *context);

/* What the mutators of a heap did. */
typedef struct crew_counts {
    uint64_t objects; /* that they made */
    uint64_t waits;   /* calls that had to wait */
    pauses pauses;    /* of the collector, by kind */
} crew_counts;

/*
 * Asks for a cycle, and waits until one has ended, or a full collection was made. Of a mutator between two calls. Where all mutators of a
 * heap do this nobody waits for room, so it is a cycle, which is cut short only where a copy finds no room.
 */
void crew_await_cycle(cvm_seat *seat);

/*
 * Opens a heap, runs the body in a thread for each mutator while others work for helpers and control, ends all, and
 * frees it.
 */
crew_counts crew_run(const cvm_config *config, crew_body *body, void *context);

#endif
