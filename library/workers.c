/*
 * Threads that work for the helpers and the control of a heap, and the back-off of whoever waits. This file is not
 * proved: it calls proved functions, one thread to a seat.
 */
#define _POSIX_C_SOURCE 200809L

#include "covremuj.h"

#include <pthread.h>
#include <sched.h>
#include <stdalign.h>
#include <stdatomic.h>
#include <stdlib.h>
#include <time.h>

/* Rounds that spin, and then rounds that yield, before a round sleeps; and the longest sleep, in nanoseconds. */
enum { SPINS = 6, YIELDS = 24, LONGEST = 200000 };

static void spin(uint32_t times) {
    for (uint32_t i = 0; i < times; i++) {
#if defined(__x86_64__) || defined(__i386__)
        __builtin_ia32_pause();
#else
        atomic_signal_fence(memory_order_seq_cst);
#endif
    }
}

static void doze(uint32_t round) {
    long most = 1000L << (round < 8 ? round : 8);
    struct timespec time = {0, most < LONGEST ? most : LONGEST};
    nanosleep(&time, NULL);
}

void cvm_back_off(uint32_t *rounds) {
    if (*rounds < SPINS) {
        spin(UINT32_C(1) << *rounds);
    } else if (*rounds < YIELDS) {
        sched_yield();
    } else {
        doze(*rounds - YIELDS);
    }
    if (*rounds < UINT32_MAX) {
        ++*rounds;
    }
}

/*
 * A thread, and the seat that it works for, which lies apart from those of other threads, so that they do not fight
 * for one cache line.
 */
typedef struct worker {
    alignas(64) cvm_seat seat;
    cvm_seat *given;
    pthread_t thread;
    atomic_int *goes_on;
} worker;

struct cvm_workers {
    atomic_int goes_on;
    size_t count;
    worker workers[CVM_MOST_SEATS];
};

static int still_goes_on(void *context) {
    return atomic_load((atomic_int *)context);
}

static void *work(void *context) {
    worker *mine = context;
    cvm_serve(&mine->seat, still_goes_on, mine->goes_on);
    return NULL;
}

/* Starts the next thread, to which the seat moves. */
static int start(cvm_workers *workers, cvm_seat *seat) {
    worker *next = &workers->workers[workers->count];
    next->given = seat;
    next->goes_on = &workers->goes_on;
    cvm_move(&next->seat, seat);
    if (pthread_create(&next->thread, NULL, work, next) != 0) {
        cvm_move(seat, &next->seat);
        return 0;
    }
    workers->count++;
    return 1;
}

void cvm_join_workers(cvm_workers *workers) {
    for (size_t i = 0; i < workers->count; i++) {
        worker *one = &workers->workers[i];
        pthread_join(one->thread, NULL);
        cvm_move(one->given, &one->seat);
    }
    free(workers);
}

void cvm_stop_workers(cvm_workers *workers) {
    atomic_store(&workers->goes_on, 0);
    cvm_join_workers(workers);
}

/* Whether all of these seats are those of helpers or of the control. */
static cvm_status look_at_all(cvm_seat *seats, size_t count) {
    if (count > CVM_MOST_SEATS) {
        return CVM_BAD_SEATS;
    }
    for (size_t i = 0; i < count; i++) {
        cvm_state state;
        cvm_status said = cvm_look(&seats[i], &state);
        if (said != CVM_DONE) {
            return said;
        }
        if (state.kind == CVM_MUTATOR) {
            return CVM_WRONG_SEAT;
        }
    }
    return CVM_DONE;
}

cvm_status cvm_start_workers(cvm_seat *seats, size_t count, cvm_workers **workers) {
    cvm_status said = look_at_all(seats, count);
    if (said != CVM_DONE) {
        return said;
    }
    cvm_workers *made = aligned_alloc(alignof(cvm_workers), sizeof *made);
    if (made == NULL) {
        return CVM_NO_MEMORY;
    }
    made->count = 0;
    atomic_init(&made->goes_on, 1);
    for (size_t i = 0; i < count; i++) {
        if (!start(made, &seats[i])) {
            cvm_stop_workers(made);
            return CVM_NO_THREAD;
        }
    }
    *workers = made;
    return CVM_DONE;
}
