/* The heap of covremuj.h as the memory of the Lisp: each function is one call. See memory.h. */
#ifndef LISP_MEMORY_COVREMUJ_H
#define LISP_MEMORY_COVREMUJ_H

#include "covremuj.h"

#include <stdalign.h>

#ifdef LISP_COUNTING_PAUSES
#include "../common/pauses.h"

#include <pthread.h>

/* The thread of the control, and the pauses that it has made. */
typedef struct memory_collector {
    alignas(64) cvm_seat seat;
    pauses pauses;
    pthread_t thread;
} memory_collector;
#endif

/* A mutator's seat, on a cache line of its own. */
typedef struct memory_seat {
    alignas(64) cvm_seat at;
    uint64_t words; /* of the heap that its objects took */
    uint64_t full;  /* how often it was told that there is no room */
} memory_seat;

typedef struct memory_heap {
    cvm_config config;
    memory_seat mutators[CVM_MOST_MUTATORS];
    cvm_seat seats[CVM_MOST_SEATS]; /* those of the helpers and the control, in their places */
    cvm_workers *workers;           /* the threads that collect */
#ifdef LISP_COUNTING_PAUSES
    memory_collector collector; /* and that of the control */
#endif
} memory_heap;

const char *memory_open(memory_heap *heap, const memory_sizes *sizes);
memory_counts memory_close(memory_heap *heap);
void memory_leave(memory_seat *seat);

static inline const char *memory_name(void) {
    return "covremuj";
}

static inline memory_seat *memory_seat_of(memory_heap *heap, size_t number) {
    return &heap->mutators[number];
}

static inline void memory_thread_begins(void) {
}

static inline void memory_thread_ends(void) {
}

static inline memory_made memory_new(memory_seat *seat, uint32_t dst, uint32_t refs, uint32_t nums) {
    cvm_status said = cvm_new(&seat->at, dst, refs, nums);
    if (said == CVM_REF) {
        seat->words += CVM_HEAD_WORDS + refs + nums;
        return MEMORY_MADE;
    }
    seat->full += said == CVM_FULL;
    return said == CVM_FULL ? MEMORY_NO_ROOM : MEMORY_SPENT;
}

static inline bool memory_get(memory_seat *seat, uint32_t dst, uint32_t src, uint32_t field) {
    return cvm_get(&seat->at, dst, src, field) == CVM_REF;
}

static inline bool memory_set(memory_seat *seat, uint32_t obj, uint32_t field, uint32_t val) {
    return cvm_set(&seat->at, obj, field, val) == CVM_OK;
}

static inline bool memory_cas(memory_seat *seat, uint32_t obj, uint32_t field, uint32_t expect, uint32_t val) {
    return cvm_cas(&seat->at, obj, field, expect, val) == CVM_YES;
}

static inline bool memory_xchg(memory_seat *seat, uint32_t dst, uint32_t obj, uint32_t field, uint32_t val) {
    return cvm_xchg(&seat->at, dst, obj, field, val) == CVM_REF;
}

static inline bool memory_rd(memory_seat *seat, uint32_t obj, uint32_t index, uint64_t *number) {
    return cvm_rd(&seat->at, obj, index, number) == CVM_NUMBER;
}

static inline bool memory_wr(memory_seat *seat, uint32_t obj, uint32_t index, uint64_t number) {
    return cvm_wr(&seat->at, obj, index, number) == CVM_OK;
}

static inline void memory_copy(memory_seat *seat, uint32_t dst, uint32_t src) {
    (void)cvm_copy(&seat->at, dst, src);
}

static inline void memory_drop(memory_seat *seat, uint32_t dst) {
    (void)cvm_drop(&seat->at, dst);
}

static inline bool memory_same(memory_seat *seat, uint32_t a, uint32_t b) {
    return cvm_same(&seat->at, a, b) == CVM_YES;
}

static inline void memory_gc(memory_seat *seat) {
    (void)cvm_gc(&seat->at);
}

#endif
