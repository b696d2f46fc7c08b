/*
 * Counts the pauses of a heap by their kind, from what cvm_look tells of its control after each of its steps. For C and C++.
 *
 * A pause begins at the place P1. The control comes there from I1, where it has looked what is asked for: while a cycle runs, that is
 * room for an object that waits. It comes from I2, where few regions are free; and else where all units of the phase's work are
 * claimed. In the pause it loads at PL each word of the heap, or in a brief pause those that it may change, and with the last one it has chosen what
 * becomes of them, the phase too; this it stores at PS. So a pause is counted where the control comes from PL to PS, by the phase before it and the phase
 * after it.
 *
 * One thing is not seen: an object that begins to wait between the control's last look and the pause. That pause makes room as well. It is counted as
 * the end of a cycle that has come to its end by then, though of one whose marking has just ended it does the rest.
 */
#ifndef PAUSES_H
#define PAUSES_H

#include "covremuj.h"

#include <stdio.h>
#include <string.h>

/* What a pause did. */
typedef enum pause_kind {
    PAUSE_BEGINS,     /* marking begins, and a cycle with it */
    PAUSE_EVACUATION, /* marking ends, evacuation begins */
    PAUSE_UPDATING,   /* evacuation ends, updating begins */
    PAUSE_WHOLE,      /* updating ends, and the cycle with it, of which all work was done beside the mutators */
    PAUSE_MARKED,     /* marking ends, and the cycle with it, since no region is worth evacuation */
    PAUSE_CUT,        /* the pause ends the cycle and does what was left of its work: a degenerated cycle */
    PAUSE_FULL,       /* a full collection, while no cycle ran */
    PAUSE_KINDS
} pause_kind;

typedef struct pauses {
    uint64_t many[PAUSE_KINDS]; /* that were made, by kind */
    uint64_t phase;             /* that the last one has left, a cvm_phase */
    char place[8];              /* of the control's next step */
    int is_for_room;            /* whether the one that was begun last was begun in a cycle, for an object that waits */
} pauses;

/* What is known of a heap that was just opened. */
static inline pauses pauses_none(void) {
    pauses none;
    memset(&none, 0, sizeof none);
    return none;
}

static inline pause_kind pause_kind_of(uint64_t before, uint64_t after, int is_for_room) {
    if (after != CVM_NO_CYCLE) {
        return after == CVM_MARKING ? PAUSE_BEGINS : after == CVM_EVACUATING ? PAUSE_EVACUATION : PAUSE_UPDATING;
    }
    if (before == CVM_NO_CYCLE) {
        return PAUSE_FULL;
    }
    if (is_for_room || before == CVM_EVACUATING) {
        return PAUSE_CUT;
    }
    return before == CVM_MARKING ? PAUSE_MARKED : PAUSE_WHOLE;
}

/* Takes down what is told of the control after a step of it. */
static inline void pauses_note(pauses *pauses, const cvm_state *state) {
    if (strcmp(state->place, "P1") == 0) {
        pauses->is_for_room = strcmp(pauses->place, "I1") == 0 && pauses->phase != CVM_NO_CYCLE;
    }
    if (strcmp(pauses->place, "PL") == 0 && strcmp(state->place, "PS") == 0) {
        pauses->many[pause_kind_of(pauses->phase, state->phase, pauses->is_for_room)]++;
    }
    pauses->phase = state->phase;
    memcpy(pauses->place, state->place, sizeof pauses->place);
}

/*
 * Gives the control at most so many steps, one by one: what cvm_work answers, or what cvm_look refuses. Each step of the control is
 * to be made by this function.
 */
static inline cvm_status pauses_work(pauses *pauses, cvm_seat *control, uint32_t steps) {
    for (uint32_t i = 0; i < steps; i++) {
        cvm_state state;
        cvm_status said = cvm_work(control, 1);
        cvm_status told = cvm_look(control, &state);
        if (told != CVM_DONE) {
            return told;
        }
        pauses_note(pauses, &state);
        if (said != CVM_MORE) {
            return said;
        }
    }
    return CVM_MORE;
}

/* All pauses. */
static inline uint64_t pauses_all(const pauses *pauses) {
    uint64_t all = 0;
    for (int kind = 0; kind < PAUSE_KINDS; kind++) {
        all += pauses->many[kind];
    }
    return all;
}

/* Those behind which no cycle runs: only they answer who waits for room. */
static inline uint64_t pauses_that_end(const pauses *pauses) {
    return pauses->many[PAUSE_WHOLE] + pauses->many[PAUSE_MARKED] + pauses->many[PAUSE_CUT] + pauses->many[PAUSE_FULL];
}

/* Whether there was one of each kind. */
static inline int pauses_have_each_kind(const pauses *pauses) {
    for (int kind = 0; kind < PAUSE_KINDS; kind++) {
        if (pauses->many[kind] == 0) {
            return 0;
        }
    }
    return 1;
}

/* Adds those of another heap. */
static inline void pauses_add(pauses *pauses, const uint64_t *many) {
    for (int kind = 0; kind < PAUSE_KINDS; kind++) {
        pauses->many[kind] += many[kind];
    }
}

/* How many there were of which kind, in words. */
typedef struct pauses_text {
    char text[192];
} pauses_text;

static inline pauses_text pauses_told(const pauses *pauses) {
    pauses_text told;
    const uint64_t *many = pauses->many;
    snprintf(told.text, sizeof told.text,
             "%llu pauses (%llu cycles ended whole, %llu with nothing to evacuate, %llu cut short; %llu full collections)",
             (unsigned long long)pauses_all(pauses), (unsigned long long)many[PAUSE_WHOLE], (unsigned long long)many[PAUSE_MARKED],
             (unsigned long long)many[PAUSE_CUT], (unsigned long long)many[PAUSE_FULL]);
    return told;
}

#endif
