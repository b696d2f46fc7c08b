/*
 * What a heap of a given size costs: memory, the opening, and the longest stop of a mutator while it is collected.
 *
 * usage: sizes REGIONS WORDS FILL HELPERS MILLISECONDS
 *
 * One mutator fills FILL per cent of the heap with a list of objects of 8 words that stay, and then loads numbers,
 * makes objects that it lets go, and asks for a collection after every 1000 calls. It writes the bytes of memory that
 * the opening took, its seconds, the calls, how many had to wait, and the longest and the median of the calls that
 * had to wait, in milliseconds.
 */
#define _POSIX_C_SOURCE 200809L
#include "common.h"

static uint64_t keep, millis;

static cvm_status timed(runner *me, cvm_op op, uint32_t a, uint32_t b, uint32_t c) {
    cvm_value value;
    return timed_call(me, op, a, b, c, 0, &value);
}

static void fill(runner *me) {
    for (uint64_t i = 0; i < keep; i++) {
        must(cvm_new(&me->seat, 2, 2, 3) == CVM_REF, "there is room");
        cvm_set(&me->seat, 2, 0, 1);
        cvm_copy(&me->seat, 1, 2);
    }
}

static void body(runner *me) {
    fill(me);
    double start = now();
    for (uint64_t i = 0; now() - start < (double)millis * 1e-3; i++) {
        timed(me, CVM_RD, 1, 0, 0);
        timed(me, CVM_GET, 3, 1, 0);
        must(timed(me, CVM_NEW, 4, 2, 3) != CVM_FULL, "there is room");
        if (i % 333 == 0) {
            timed(me, CVM_GC, 0, 0, 0);
        }
    }
}

static double length_of(const stop *stop) {
    return stop->end - stop->start;
}

static int by_length(const void *a, const void *b) {
    double x = length_of(a), y = length_of(b);
    return (x > y) - (x < y);
}

int main(int count, char **words) {
    static bench bench;
    static stop stops[MOST_STOPS];
    if (count != 6) {
        return 2;
    }
    uint64_t regions = number_word(words, 1), region_words = number_word(words, 2);
    keep = regions * region_words * number_word(words, 3) / 100 / 8;
    millis = number_word(words, 5);
    open_bench(&bench, regions, region_words, 1, number_word(words, 4));
    bench.runners[0].stops = stops;
    run_bench(&bench, body);
    const runner *one = &bench.runners[0];
    size_t many = one->waits < MOST_STOPS ? one->waits : MOST_STOPS;
    qsort(stops, many, sizeof stops[0], by_length);
    double median = many == 0 ? 0 : length_of(&stops[many / 2]);
    printf("%.0f %.6f %llu %llu %.3f %.3f\n", bench.bytes, bench.opening, (unsigned long long)one->count, (unsigned long long)one->waits,
           one->longest * 1e3, median * 1e3);
    return 0;
}
