/*
 * The list program over the heap: each thread makes a list of LENGTH numbers, adds them up and lets the list go,
 * TIMES times.
 *
 * usage: list_heap LENGTH TIMES THREADS REGIONS WORDS HELPERS EVERY
 *
 * Behind each EVERY objects that it makes a thread asks for a collection; with 0 it never does. It writes the sum of
 * all; the seconds; those of processor time of all threads, and of those that make lists; the longest single call in
 * milliseconds; the calls of all; and of one thread, on average, the calls that had to wait, and their seconds.
 */
#define _POSIX_C_SOURCE 200809L
#include "common.h"

static uint64_t length, times, every;
static atomic_ullong sum;

static void body(runner *me) {
    cvm_value value;
    uint64_t mine = 0;
    for (uint64_t time = 0; time < times; time++) {
        cvm_drop(&me->seat, 1);
        for (uint64_t i = 1; i <= length; i++) {
            must(timed_call(me, CVM_NEW, 2, 1, 1, 0, &value) == CVM_REF, "there is room");
            timed_call(me, CVM_WR, 2, 0, 0, i, &value);
            timed_call(me, CVM_SET, 2, 0, 1, 0, &value);
            timed_call(me, CVM_COPY, 1, 2, 0, 0, &value);
            if (every != 0 && (time * length + i) % every == 0) {
                timed_call(me, CVM_GC, 0, 0, 0, 0, &value);
            }
        }
        while (timed_call(me, CVM_RD, 1, 0, 0, 0, &value) == CVM_NUMBER) {
            mine += value.number;
            timed_call(me, CVM_GET, 1, 1, 0, 0, &value);
        }
    }
    atomic_fetch_add(&sum, mine);
}

int main(int count, char **words) {
    static bench bench;
    double longest = 0, busy = 0, waited = 0, calls = 0, waits = 0;
    if (count != 8) {
        return 2;
    }
    length = number_word(words, 1);
    times = number_word(words, 2);
    every = number_word(words, 7);
    open_bench(&bench, number_word(words, 4), number_word(words, 5), number_word(words, 3), number_word(words, 6));
    double seconds = run_bench(&bench, body);
    for (size_t i = 0; i < bench.config.mutators; i++) {
        const runner *one = &bench.runners[i];
        longest = one->longest > longest ? one->longest : longest;
        busy += one->busy;
        waited += one->waited;
        waits += (double)one->waits;
        calls += (double)one->count;
    }
    double threads = (double)bench.config.mutators;
    printf("%llu %.6f %.6f %.6f %.3f %.0f %.1f %.6f\n", (unsigned long long)atomic_load(&sum), seconds, process_time(), busy, longest * 1e3, calls,
           waits / threads, waited / threads);
    return 0;
}
