/* Opening and closing the heap of covremuj.h, with threads that collect it. */
#include "memory.h"

#if !defined LISP_OVER_MALLOC && !defined LISP_OVER_BOEHM

/* Each mutator's seat goes to its own place, or back from there. */
static void move_seats(memory_heap *heap, bool back) {
    for (size_t i = 0; i < heap->config.mutators; i++) {
        cvm_seat *own = &heap->mutators[i].at;
        cvm_move(back ? &heap->seats[i] : own, back ? own : &heap->seats[i]);
    }
}

/* Gives up what was opened, where its threads could not be started. */
static void give_up(memory_heap *heap, size_t count) {
    for (size_t i = 0; i < count; i++) {
        (void)cvm_close(&heap->seats[i]);
    }
}

#ifdef LISP_COUNTING_PAUSES

/* The control's seat, which is the last one. */
static cvm_seat *seat_of_control(memory_heap *heap) {
    return &heap->seats[cvm_seat_count(&heap->config) - 1];
}

static void *collect(void *context) {
    memory_collector *me = context;
    uint32_t rounds = 0;
    cvm_status said = CVM_MORE;
    while (said == CVM_MORE || said == CVM_AGAIN) {
        said = pauses_work(&me->pauses, &me->seat, CVM_STEPS);
        if (said == CVM_AGAIN) {
            cvm_back_off(&rounds);
        } else {
            rounds = 0;
        }
    }
    return NULL;
}

/* A thread for each helper, and one for the control. */
static cvm_status start(memory_heap *heap) {
    cvm_status said = cvm_start_workers(heap->seats + heap->config.mutators, heap->config.helpers, &heap->workers);
    if (said != CVM_DONE) {
        return said;
    }
    heap->collector.pauses = pauses_none();
    cvm_move(&heap->collector.seat, seat_of_control(heap));
    if (pthread_create(&heap->collector.thread, NULL, collect, &heap->collector) != 0) {
        cvm_move(seat_of_control(heap), &heap->collector.seat);
        cvm_stop_workers(heap->workers);
        return CVM_NO_THREAD;
    }
    return CVM_DONE;
}

/* Waits until helpers and control have ended; what the pauses were. */
static void join(memory_heap *heap, memory_counts *counts) {
    const uint64_t *many = heap->collector.pauses.many;
    (void)pthread_join(heap->collector.thread, NULL);
    cvm_join_workers(heap->workers);
    cvm_move(seat_of_control(heap), &heap->collector.seat);
    counts->collections = pauses_that_end(&heap->collector.pauses);
    counts->whole = many[PAUSE_WHOLE];
    counts->marked = many[PAUSE_MARKED];
    counts->cut = many[PAUSE_CUT];
    counts->full = many[PAUSE_FULL];
}

#else

static cvm_status start(memory_heap *heap) {
    return cvm_start_workers(heap->seats + heap->config.mutators, heap->config.helpers + 1, &heap->workers);
}

static void join(memory_heap *heap, memory_counts *counts) {
    (void)counts;
    cvm_join_workers(heap->workers);
}

#endif

const char *memory_open(memory_heap *heap, const memory_sizes *sizes) {
    cvm_config config = {
        .regions = sizes->regions,
        .region_words = sizes->region_words,
        .mutators = sizes->mutators,
        .helpers = sizes->helpers,
        .reserve = sizes->reserve,
    };
    memory_heap closed = {.config = config};
    *heap = closed;
    size_t count = cvm_seat_count(&config);
    cvm_status said = cvm_open(&config, heap->seats, count);
    if (said != CVM_DONE) {
        return cvm_status_name(said);
    }
    said = start(heap);
    if (said != CVM_DONE) {
        give_up(heap, count);
        return cvm_status_name(said);
    }
    move_seats(heap, false);
    return NULL;
}

void memory_leave(memory_seat *seat) {
    (void)cvm_finish(&seat->at);
}

memory_counts memory_close(memory_heap *heap) {
    memory_counts counts = {0};
    join(heap, &counts);
    move_seats(heap, true);
    for (size_t i = 0; i < heap->config.mutators; i++) {
        cvm_state state = {0};
        (void)cvm_look(&heap->seats[i], &state);
        counts.made += state.made;
        counts.words += heap->mutators[i].words;
        counts.full_answers += heap->mutators[i].full;
    }
    (void)cvm_close_all(heap->seats, cvm_seat_count(&heap->config));
    return counts;
}

#else

typedef int memory_covremuj_is_not_used;

#endif
