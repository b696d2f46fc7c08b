/*
 * The one memory of the Lisp: objects of up to 16 references and 16 numbers, reached through the 16 roots of a seat.
 *
 * Everything else of the Lisp is written against the functions below. Which memory they are of is chosen when the Lisp is
 * compiled: the heap of covremuj.h, or, to measure beside it, C's malloc with nothing ever freed (-DLISP_OVER_MALLOC), or
 * Boehm's collector (-DLISP_OVER_BOEHM). Each file gives the same names. With -DLISP_COUNTING, and malloc, calls are counted; with
 * -DLISP_COUNTING_PAUSES, and the heap, pauses are, for which the control is looked at after each of its steps.
 *
 *     memory_heap, memory_seat                          a memory; what one thread works through
 *     memory_new(seat, dst, refs, nums)                 a memory_made
 *     memory_get(seat, dst, src, field)                 root dst becomes what stands in the field; whether it is an object
 *     memory_set(seat, obj, field, val)                 whether there was such a field
 *     memory_cas(seat, obj, field, expect, val)         whether it was exchanged
 *     memory_xchg(seat, dst, obj, field, val)           the field becomes root val, root dst what was there; whether that is an object
 *     memory_rd(seat, obj, index, number)               whether there was such a number
 *     memory_wr(seat, obj, index, number)               the same
 *     memory_copy(seat, dst, src), memory_drop(seat, dst), memory_same(seat, a, b), memory_gc(seat)
 *
 *     memory_open(heap, sizes)                          NULL, or why not, in words
 *     memory_seat_of(heap, number)                      the seat of mutator `number`, from 0
 *     memory_leave(seat)                                the mutator ends; it takes no command any more
 *     memory_close(heap)                                after all mutators have left; what it can tell of them all
 *     memory_name()                                     what the memory is called
 *     memory_thread_begins(), memory_thread_ends()      called by each thread that uses a seat and is not the first
 */
#ifndef LISP_MEMORY_H
#define LISP_MEMORY_H

#include <stdbool.h>
#include <stddef.h>
#include <stdint.h>

/* What an allocation answers. */
typedef enum memory_made {
    MEMORY_MADE,    /* root dst names the new object */
    MEMORY_NO_ROOM, /* live objects leave no room; nothing has changed */
    MEMORY_SPENT    /* this seat makes no object any more; nothing has changed */
} memory_made;

/* The sizes of a memory. Of those over malloc and over Boehm's collector only the mutators count. */
typedef struct memory_sizes {
    size_t regions, region_words; /* as in cvm_config */
    size_t mutators, helpers;
    size_t reserve;
} memory_sizes;

/* What a memory can tell of its life. What it does not know is 0. */
typedef struct memory_counts {
    uint64_t made;         /* objects made by all mutators */
    uint64_t words;        /* of 8 bytes that they took in the heap */
    uint64_t full_answers; /* allocations that were answered that there is no room, each of which a full collection had found */
    uint64_t commands;     /* calls of the functions above, where they are counted */
    uint64_t collections;  /* that have ended: of Boehm's collector, and of the heap where its pauses are counted; and of the heap's: */
    uint64_t whole;        /* cycles all of whose work was done beside the mutators */
    uint64_t marked;       /* cycles that had nothing to evacuate */
    uint64_t cut;          /* cycles that a pause has cut short */
    uint64_t full;         /* full collections, while no cycle ran */
} memory_counts;

#if defined LISP_OVER_MALLOC || defined LISP_OVER_BOEHM
#include "memory_objects.h"
#else
#include "memory_covremuj.h"
#endif

#endif
