/* What the measurements share: clocks, threads, and a heap with its workers. */
#ifndef COMMON_H
#define COMMON_H

#include "covremuj.h"

#include <pthread.h>
#include <stdalign.h>
#include <stdatomic.h>
#include <stdio.h>
#include <stdlib.h>
#include <string.h>
#include <time.h>
#if defined(__GLIBC__)
#include <malloc.h>
#endif

static inline double now(void) {
    struct timespec time;
    clock_gettime(CLOCK_MONOTONIC, &time);
    return (double)time.tv_sec + (double)time.tv_nsec * 1e-9;
}

/* Seconds of processor time of all threads. */
static inline double process_time(void) {
    return (double)clock() / CLOCKS_PER_SEC;
}

/* Seconds of processor time of the thread that asks. */
static inline double thread_time(void) {
    struct timespec time;
    clock_gettime(CLOCK_THREAD_CPUTIME_ID, &time);
    return (double)time.tv_sec + (double)time.tv_nsec * 1e-9;
}

static inline void must(int is_true, const char *what) {
    if (!is_true) {
        fprintf(stderr, "not true: %s\n", what);
        exit(1);
    }
}

/* A call that had to wait: from when to when, in seconds of the clock. */
typedef struct stop {
    double start, end;
} stop;

/* So many stops of a thread are kept at most, the last ones. */
enum { MOST_STOPS = 1 << 16 };

/* A thread of a measurement: what it does, and what it tells. */
typedef struct runner {
    alignas(64) cvm_seat seat;
    size_t number;
    uint64_t count;    /* operations that it made */
    uint64_t waits;    /* how many of them had to wait, where they are timed */
    double longest;    /* the longest of these, in seconds */
    double waited;     /* all of these */
    stop *stops;       /* these one by one, where there is room for MOST_STOPS of them */
    double busy;       /* seconds of processor time */
    void (*body)(struct runner *);
    pthread_t thread;
} runner;

typedef struct bench {
    cvm_config config;
    cvm_seat seats[CVM_MOST_SEATS];
    cvm_workers *workers;
    runner runners[CVM_MOST_MUTATORS];
    double opening; /* seconds of cvm_open */
    double bytes;   /* that it took, where the C library tells */
} bench;

/* Bytes that are taken of malloc, or 0 where the C library does not tell. */
static inline double taken(void) {
#if defined(__GLIBC__) && (__GLIBC__ > 2 || __GLIBC_MINOR__ >= 33)
    struct mallinfo2 info = mallinfo2();
    return (double)info.uordblks + (double)info.hblkhd;
#else
    return 0;
#endif
}

/* Opens a heap for whose helpers and control nobody works yet. */
static inline void open_heap(bench *bench, size_t regions, size_t words, size_t mutators, size_t helpers) {
    memset(bench, 0, sizeof *bench);
    bench->config = (cvm_config){regions, words, mutators, helpers, regions / 8};
    double start = now(), before = taken();
    cvm_status said = cvm_open(&bench->config, bench->seats, cvm_seat_count(&bench->config));
    bench->opening = now() - start;
    bench->bytes = taken() - before;
    if (said != CVM_DONE) {
        printf("%s\n", cvm_status_name(said));
        exit(3);
    }
}

/* Opens a heap with a thread for each helper and for the control. */
static inline void open_bench(bench *bench, size_t regions, size_t words, size_t mutators, size_t helpers) {
    open_heap(bench, regions, words, mutators, helpers);
    must(cvm_start_workers(bench->seats + mutators, helpers + 1, &bench->workers) == CVM_DONE, "workers start");
}

/* Makes a call of a mutator, and notes how long it waited if it had to. */
static inline cvm_status timed_call(runner *me, cvm_op op, uint32_t a, uint32_t b, uint32_t c, uint64_t value, cvm_value *answer) {
    must(cvm_begin(&me->seat, op, a, b, c, 0, value) == CVM_DONE, "a call begins");
    cvm_status said = cvm_poll(&me->seat, answer);
    if (said == CVM_AGAIN) {
        stop stop = {now(), 0};
        said = cvm_wait(&me->seat, answer);
        stop.end = now();
        double took = stop.end - stop.start;
        me->longest = took > me->longest ? took : me->longest;
        me->waited += took;
        if (me->stops != NULL) {
            me->stops[me->waits % MOST_STOPS] = stop;
        }
        me->waits++;
    }
    me->count++;
    return said;
}

static inline void *run_one(void *context) {
    runner *me = context;
    me->body(me);
    me->busy = thread_time();
    cvm_finish(&me->seat);
    return NULL;
}

/* Runs the body in a thread for each mutator. The answer is the seconds from the start of the first to the end of the last. */
static inline double run_mutators(bench *bench, void (*body)(runner *)) {
    double start = now();
    for (size_t i = 0; i < bench->config.mutators; i++) {
        runner *one = &bench->runners[i];
        one->number = i;
        one->body = body;
        cvm_move(&one->seat, &bench->seats[i]);
        must(pthread_create(&one->thread, NULL, run_one, one) == 0, "a thread starts");
    }
    for (size_t i = 0; i < bench->config.mutators; i++) {
        pthread_join(bench->runners[i].thread, NULL);
        cvm_move(&bench->seats[i], &bench->runners[i].seat);
    }
    return now() - start;
}

static inline void close_heap(bench *bench) {
    for (size_t i = 0; i < cvm_seat_count(&bench->config); i++) {
        must(cvm_close(&bench->seats[i]) == CVM_DONE, "a seat closes");
    }
}

/* Runs the mutators of a heap that has its threads for helpers and control, and closes it. The answer is that of run_mutators. */
static inline double run_bench(bench *bench, void (*body)(runner *)) {
    double seconds = run_mutators(bench, body);
    cvm_join_workers(bench->workers);
    close_heap(bench);
    return seconds;
}

static inline uint64_t number_word(char **words, int at) {
    return strtoull(words[at], NULL, 10);
}

#endif
