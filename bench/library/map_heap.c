/*
 * The map program over the heap: each thread gets, puts and removes keys below KEYS as random numbers say, all in one
 * map (library/users/map).
 *
 * usage: map_heap KEYS OPERATIONS THREADS REGIONS WORDS HELPERS     writes the keys that are left, those that ought
 * to be, and the seconds
 */
#define _POSIX_C_SOURCE 200809L
#include "../../library/users/map/map.h"
#include "common.h"
#include "mix.h"

static uint64_t keys, operations;
static atomic_llong balance;
static atomic_size_t ready, done;
static uint64_t left;

static void wait_for(atomic_size_t *count, size_t threads) {
    uint32_t rounds = 0;
    atomic_fetch_add(count, 1);
    while (atomic_load(count) < threads) {
        cvm_back_off(&rounds);
    }
}

static void operate(const map *map, uint64_t random, long long *mine) {
    uint64_t value, key = random % keys;
    map_answer said;
    switch (random >> 62) {
    case 0:
        said = map_put(map, key, random, &value);
        *mine += said == MAP_NONE;
        break;
    case 1:
        said = map_remove(map, key, &value);
        *mine -= said == MAP_FOUND;
        break;
    default: said = map_get(map, key, &value);
    }
    must(said == MAP_FOUND || said == MAP_NONE, "an answer");
}

static size_t threads;

static void body(runner *me) {
    map map = {&me->seat, 1, 2};
    uint64_t state = me->number;
    long long mine = 0;
    if (me->number == 0) {
        must(map_make(&map) == MAP_NONE && cvm_set(&me->seat, 0, 0, 1) == CVM_OK, "a map");
    }
    while (cvm_get(&me->seat, 1, 0, 0) != CVM_REF) {
    }
    wait_for(&ready, threads);
    for (uint64_t i = 0; i < operations; i++) {
        operate(&map, mix(&state), &mine);
    }
    atomic_fetch_add(&balance, mine);
    wait_for(&done, threads);
    if (me->number == 0) {
        must(map_count(&map, &left) == MAP_FOUND, "a count");
    }
}

int main(int count, char **words) {
    static bench bench;
    if (count != 7) {
        return 2;
    }
    keys = number_word(words, 1);
    operations = number_word(words, 2);
    threads = number_word(words, 3);
    open_bench(&bench, number_word(words, 4), number_word(words, 5), threads, number_word(words, 6));
    double seconds = run_bench(&bench, body);
    double busy = 0;
    for (size_t i = 0; i < threads; i++) {
        busy += bench.runners[i].busy;
    }
    printf("%llu %lld %.6f %.6f %.6f\n", (unsigned long long)left, atomic_load(&balance), seconds, process_time(), busy);
    return 0;
}
