/* Opening and closing the memories of memory_objects.h. */
#include "memory.h"

#if defined LISP_OVER_MALLOC || defined LISP_OVER_BOEHM

/* A seat whose roots are null. Boehm's collector scans it. */
static memory_seat *new_seat(void) {
#ifdef LISP_OVER_BOEHM
    return GC_MALLOC_UNCOLLECTABLE(sizeof(memory_seat));
#else
    return calloc(1, sizeof(memory_seat));
#endif
}

/* One object of 16 references for all: root 0 of each seat. */
static bool make_hub(memory_heap *heap) {
    if (memory_new(heap->seats[0], 0, MEMORY_MOST, 0) != MEMORY_MADE) {
        return false;
    }
    for (size_t i = 1; i < heap->mutators; i++) {
        heap->seats[i]->roots[0] = heap->seats[0]->roots[0];
    }
    return true;
}

const char *memory_open(memory_heap *heap, const memory_sizes *sizes) {
#ifdef LISP_OVER_BOEHM
    GC_INIT();
    GC_allow_register_threads();
#endif
    if (sizes->mutators < 1 || sizes->mutators > MEMORY_MOST_MUTATORS) {
        return "threads are 1 to 8";
    }
    heap->mutators = sizes->mutators;
    for (size_t i = 0; i < heap->mutators; i++) {
        heap->seats[i] = new_seat();
        if (heap->seats[i] == NULL) {
            return "no memory";
        }
    }
    return make_hub(heap) ? NULL : "no memory";
}

memory_counts memory_close(memory_heap *heap) {
    memory_counts counts = {0};
    for (size_t i = 0; i < heap->mutators; i++) {
        counts.made += heap->seats[i]->made;
        counts.commands += heap->seats[i]->commands;
#ifdef LISP_OVER_BOEHM
        GC_FREE(heap->seats[i]);
#else
        free(heap->seats[i]);
#endif
        heap->seats[i] = NULL;
    }
#ifdef LISP_OVER_BOEHM
    counts.collections = GC_get_gc_no();
#endif
    return counts;
}

void memory_leave(memory_seat *seat) {
    for (uint32_t root = 0; root < MEMORY_MOST; root++) {
        seat->roots[root] = NULL;
    }
}

void memory_thread_begins(void) {
#ifdef LISP_OVER_BOEHM
    struct GC_stack_base base;
    if (GC_get_stack_base(&base) == GC_SUCCESS) {
        GC_register_my_thread(&base);
    }
#endif
}

void memory_thread_ends(void) {
#ifdef LISP_OVER_BOEHM
    GC_unregister_my_thread();
#endif
}

#else

typedef int memory_objects_are_not_used;

#endif
