/*
 * Objects in C's own memory as the memory of the Lisp, to measure beside the heap. Over malloc nothing is ever freed; over
 * Boehm's collector the objects and the seats lie in its memory. See memory.h.
 *
 * Fields are loaded with acquire and stored with release, which is what threads that share objects need; numbers are relaxed.
 */
#ifndef LISP_MEMORY_OBJECTS_H
#define LISP_MEMORY_OBJECTS_H

#include <stdatomic.h>
#include <stdlib.h>

#ifdef LISP_OVER_BOEHM
#define GC_THREADS
#define GC_NO_THREAD_REDIRECTS
#include <gc.h>
#endif

enum { MEMORY_MOST = 16, MEMORY_MOST_MUTATORS = 8 };

typedef struct memory_object {
    uint32_t refs, nums;
    _Atomic(uint64_t) words[]; /* the references, as addresses, and then the numbers */
} memory_object;

typedef struct memory_seat {
    memory_object *roots[MEMORY_MOST];
    uint64_t made;
    uint64_t commands; /* 0 where they are not counted */
} memory_seat;

#ifdef LISP_COUNTING
#define MEMORY_COUNT(seat) ((void)(seat)->commands++)
#else
#define MEMORY_COUNT(seat) ((void)(seat))
#endif

typedef struct memory_heap {
    size_t mutators;
    memory_seat *seats[MEMORY_MOST_MUTATORS];
} memory_heap;

const char *memory_open(memory_heap *heap, const memory_sizes *sizes);
memory_counts memory_close(memory_heap *heap);
void memory_leave(memory_seat *seat);
void memory_thread_begins(void);
void memory_thread_ends(void);

static inline const char *memory_name(void) {
#ifdef LISP_OVER_BOEHM
    return "boehm";
#else
    return "malloc";
#endif
}

static inline memory_seat *memory_seat_of(memory_heap *heap, size_t number) {
    return heap->seats[number];
}

/* Zeroed memory that is collected, or that is never freed. */
static inline void *memory_words(size_t bytes) {
#ifdef LISP_OVER_BOEHM
    return GC_MALLOC(bytes);
#else
    return calloc(1, bytes);
#endif
}

static inline memory_made memory_new(memory_seat *seat, uint32_t dst, uint32_t refs, uint32_t nums) {
    MEMORY_COUNT(seat);
    memory_object *object = memory_words(sizeof(memory_object) + (refs + nums) * sizeof(uint64_t));
    if (object == NULL) {
        return MEMORY_NO_ROOM;
    }
    object->refs = refs;
    object->nums = nums;
    seat->roots[dst] = object;
    seat->made++;
    return MEMORY_MADE;
}

static inline bool memory_get(memory_seat *seat, uint32_t dst, uint32_t src, uint32_t field) {
    MEMORY_COUNT(seat);
    memory_object *object = seat->roots[src];
    if (object == NULL || field >= object->refs) {
        return false;
    }
    uint64_t found = atomic_load_explicit(&object->words[field], memory_order_acquire);
    seat->roots[dst] = (memory_object *)(uintptr_t)found;
    return found != 0;
}

static inline bool memory_set(memory_seat *seat, uint32_t obj, uint32_t field, uint32_t val) {
    MEMORY_COUNT(seat);
    memory_object *object = seat->roots[obj];
    if (object == NULL || field >= object->refs) {
        return false;
    }
    atomic_store_explicit(&object->words[field], (uintptr_t)seat->roots[val], memory_order_release);
    return true;
}

static inline bool memory_cas(memory_seat *seat, uint32_t obj, uint32_t field, uint32_t expect, uint32_t val) {
    MEMORY_COUNT(seat);
    memory_object *object = seat->roots[obj];
    if (object == NULL || field >= object->refs) {
        return false;
    }
    uint64_t old = (uintptr_t)seat->roots[expect];
    return atomic_compare_exchange_strong(&object->words[field], &old, (uintptr_t)seat->roots[val]);
}

static inline bool memory_xchg(memory_seat *seat, uint32_t dst, uint32_t obj, uint32_t field, uint32_t val) {
    MEMORY_COUNT(seat);
    memory_object *object = seat->roots[obj];
    if (object == NULL || field >= object->refs) {
        return false;
    }
    uint64_t found = atomic_exchange(&object->words[field], (uintptr_t)seat->roots[val]);
    seat->roots[dst] = (memory_object *)(uintptr_t)found;
    return found != 0;
}

static inline bool memory_rd(memory_seat *seat, uint32_t obj, uint32_t index, uint64_t *number) {
    MEMORY_COUNT(seat);
    memory_object *object = seat->roots[obj];
    if (object == NULL || index >= object->nums) {
        return false;
    }
    *number = atomic_load_explicit(&object->words[object->refs + index], memory_order_relaxed);
    return true;
}

static inline bool memory_wr(memory_seat *seat, uint32_t obj, uint32_t index, uint64_t number) {
    MEMORY_COUNT(seat);
    memory_object *object = seat->roots[obj];
    if (object == NULL || index >= object->nums) {
        return false;
    }
    atomic_store_explicit(&object->words[object->refs + index], number, memory_order_relaxed);
    return true;
}

static inline void memory_copy(memory_seat *seat, uint32_t dst, uint32_t src) {
    MEMORY_COUNT(seat);
    seat->roots[dst] = seat->roots[src];
}

static inline void memory_drop(memory_seat *seat, uint32_t dst) {
    MEMORY_COUNT(seat);
    seat->roots[dst] = NULL;
}

static inline bool memory_same(memory_seat *seat, uint32_t a, uint32_t b) {
    MEMORY_COUNT(seat);
    return seat->roots[a] == seat->roots[b];
}

static inline void memory_gc(memory_seat *seat) {
    MEMORY_COUNT(seat);
#ifdef LISP_OVER_BOEHM
    GC_gcollect();
#endif
}

#endif
