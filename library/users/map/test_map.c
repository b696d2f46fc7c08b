/*
 * The map, with 1 to 8 threads, against a model, on a heap so small that it is collected all the time.
 *
 * In each round every thread has keys of its own, of which a model beside it knows each value: each answer has to be
 * the model's. All threads read each other's keys besides, where a value has to be one that the owner once put there;
 * and all add to a few keys of all, of which the sum is known in the end. Keys of all threads lie below the same
 * branches.
 */
#include "../common/crew.h"
#include "map.h"

#include <stdatomic.h>
#include <string.h>

enum { OWN = 24, SHARED = 4, TOP = 1, ROOM = 2, HUB = 0, FIELD = 5, EVERY = 64 };

typedef struct round {
    size_t threads;
    uint64_t seed;
    uint32_t operations;
    atomic_uint ready;
    atomic_uint done;
    atomic_ullong adds;
    atomic_ullong fulls;
    atomic_ullong keys;
} round;

/* A thread's own keys, and what the map has to say of them. */
typedef struct model {
    uint64_t thread;
    int is_in[OWN];
    uint64_t value[OWN];
} model;

static uint64_t own_key(uint64_t thread, uint64_t i) {
    return thread * 1000 + i;
}

static uint64_t shared_key(uint64_t i) {
    return UINT64_C(1) << (40 + i);
}

/* A value that tells whose it is. */
static uint64_t value_of(uint64_t key, uint64_t random) {
    return key << 32 | random >> 32;
}

static void check_put(const map *map, model *model, uint64_t i, uint64_t random, round *round) {
    uint64_t before = 0, key = own_key(model->thread, i), value = value_of(key, random);
    map_answer said = map_put(map, key, value, &before);
    if (said == MAP_FULL) {
        atomic_fetch_add(&round->fulls, 1);
        return;
    }
    MUST(said == (model->is_in[i] ? MAP_FOUND : MAP_NONE));
    MUST(said == MAP_NONE || before == model->value[i]);
    model->is_in[i] = 1;
    model->value[i] = value;
}

static void check_remove(const map *map, model *model, uint64_t i) {
    uint64_t before = 0;
    map_answer said = map_remove(map, own_key(model->thread, i), &before);
    MUST(said == (model->is_in[i] ? MAP_FOUND : MAP_NONE));
    MUST(said == MAP_NONE || before == model->value[i]);
    model->is_in[i] = 0;
}

static void check_get(const map *map, const model *model, uint64_t i) {
    uint64_t value = 0;
    map_answer said = map_get(map, own_key(model->thread, i), &value);
    MUST(said == (model->is_in[i] ? MAP_FOUND : MAP_NONE));
    MUST(said == MAP_NONE || value == model->value[i]);
}

static void check_other(const map *map, uint64_t thread, uint64_t i) {
    uint64_t value = 0, key = own_key(thread, i);
    map_answer said = map_get(map, key, &value);
    MUST(said == MAP_NONE || (said == MAP_FOUND && value >> 32 == key));
}

static void check_add(const map *map, uint64_t i, round *round) {
    uint64_t before = 0;
    map_answer said = map_add(map, shared_key(i), 1, &before);
    if (said == MAP_FULL) {
        atomic_fetch_add(&round->fulls, 1);
        return;
    }
    MUST(said == MAP_FOUND || (said == MAP_NONE && before == 0));
    atomic_fetch_add(&round->adds, 1);
}

/* An operation; now and then a thread waits for a cycle before it, which runs beside the operations of the others. */
static void operate(const map *map, model *model, uint64_t random, round *round) {
    uint64_t i = (random >> 8) % OWN;
    if ((random >> 24) % EVERY == 0) {
        crew_await_cycle(map->seat);
    }
    switch (random % 8) {
    case 0:
    case 1:
    case 2: check_put(map, model, i, random, round); break;
    case 3: check_remove(map, model, i); break;
    case 4:
    case 5: check_get(map, model, i); break;
    case 6: check_other(map, (random >> 16) % round->threads, i); break;
    default: check_add(map, i % SHARED, round); break;
    }
}

/* The first thread makes the map and shows it in the hub; the others load it from there. */
static void join(const map *map, size_t thread) {
    if (thread == 0) {
        MUST(map_make(map) == MAP_NONE);
        MUST(cvm_set(map->seat, HUB, FIELD, TOP) == CVM_OK);
    }
    while (cvm_get(map->seat, TOP, HUB, FIELD) != CVM_REF) {
    }
}

/* Waits until all threads have come here. */
static void meet(atomic_uint *count, size_t threads) {
    uint32_t rounds = 0;
    atomic_fetch_add(count, 1);
    while (atomic_load(count) < threads) {
        cvm_back_off(&rounds);
    }
}

/* In the end each thread sees all of its keys, and the first one the sums. */
static void look_at_all(const map *map, const model *model, round *round) {
    uint64_t sum = 0;
    for (uint64_t i = 0; i < OWN; i++) {
        check_get(map, model, i);
        atomic_fetch_add(&round->keys, model->is_in[i] ? 1 : 0);
    }
    meet(&round->done, round->threads);
    if (model->thread != 0) {
        return;
    }
    uint64_t count = 0, shared = 0;
    for (uint64_t i = 0; i < SHARED; i++) {
        uint64_t value = 0;
        if (map_get(map, shared_key(i), &value) == MAP_FOUND) {
            shared++;
            sum += value;
        }
    }
    MUST(sum == atomic_load(&round->adds));
    MUST(map_count(map, &count) == MAP_FOUND);
    MUST(count == atomic_load(&round->keys) + shared);
}

static void play(cvm_seat *seat, size_t thread, void *context) {
    round *round = context;
    map map = {seat, TOP, ROOM};
    model model = {.thread = thread};
    uint64_t random = round->seed + thread * 7919;
    join(&map, thread);
    meet(&round->ready, round->threads);
    for (uint32_t i = 0; i < round->operations; i++) {
        operate(&map, &model, random_next(&random), round);
    }
    look_at_all(&map, &model, round);
    map_leave(&map);
}

/* Finds every other key from the first on, and takes it out. */
static void take_out(const map *map, uint64_t first, uint64_t many, uint64_t time) {
    uint64_t value = 0;
    for (uint64_t key = first; key < many; key += 2) {
        MUST(map_get(map, key, &value) == MAP_FOUND && value == key + time);
        MUST(map_remove(map, key, &value) == MAP_FOUND && value == key + time);
        MUST(map_get(map, key, &value) == MAP_NONE);
    }
}

/* One thread alone puts keys until the heap is full, finds all of them, and takes them out again, with a cycle in the middle, three times. */
static void fill(cvm_seat *seat, size_t thread, void *context) {
    map map = {seat, TOP, ROOM};
    uint64_t value = 0;
    MUST(thread == 0 && map_make(&map) == MAP_NONE);
    for (uint64_t time = 0; time < 3; time++) {
        uint64_t many = 0;
        while (map_put(&map, many, many + time, &value) == MAP_NONE) {
            many++;
        }
        MUST(many > 0 && map_get(&map, many, &value) == MAP_NONE); /* the one that found no room is not there */
        take_out(&map, 0, many, time);
        crew_await_cycle(seat);
        take_out(&map, 1, many, time);
        MUST(map_count(&map, &value) == MAP_FOUND && value == 0);
        *(uint64_t *)context += many;
    }
    map_leave(&map);
}

int main(int count, char **words) {
    uint32_t operations = count > 1 ? (uint32_t)strtoul(words[1], NULL, 10) : 2000;
    cvm_config alone = {.regions = 8, .region_words = 64, .mutators = 1, .helpers = 1, .reserve = 1};
    uint64_t many = 0;
    crew_counts filled = crew_run(&alone, fill, &many);
    MUST(pauses_that_end(&filled.pauses) >= 3 + filled.pauses.many[PAUSE_FULL]); /* the cycles that it has awaited */
    MUST(pauses_that_end(&filled.pauses) >= 6);                                  /* and one pause for each answer that the heap is full */
    printf("map: one thread put %llu keys, three times until the heap was full; %s, %llu calls waited\n", (unsigned long long)many,
           pauses_told(&filled.pauses).text, (unsigned long long)filled.waits);
    for (size_t threads = 1; threads <= CVM_MOST_MUTATORS; threads++) {
        cvm_config config = {.regions = 6 + 4 * threads, .region_words = 64, .mutators = threads, .helpers = threads % 3, .reserve = 2};
        round round = {.threads = threads, .seed = threads, .operations = operations};
        crew_counts did = crew_run(&config, play, &round);
        printf("map: %zu threads, %u operations each, on %zu words: %llu objects made, %s, %llu calls waited, %llu found the heap full\n", threads,
               operations, config.regions * config.region_words, (unsigned long long)did.objects, pauses_told(&did.pauses).text,
               (unsigned long long)did.waits, atomic_load(&round.fulls));
    }
    return 0;
}
