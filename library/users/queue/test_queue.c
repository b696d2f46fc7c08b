/*
 * The queue, with 1 to 8 threads, on a heap so small that it is collected all the time.
 *
 * One thread alone is held to a plain array. Where there are more, each thread puts numbers of its own in a row and
 * takes what it finds, and in the end they take what is left: each number that was put comes out exactly once, and of
 * the numbers of one thread each taker gets the earlier before the later.
 */
#include "../common/crew.h"
#include "queue.h"

#include <stdatomic.h>

enum { HUB = 0, ANCHOR = 1, ROOM = 2, FIELD = 9, MOST = 1 << 16, WAITING = 8, EVERY = 64 };

typedef struct round {
    size_t threads;
    uint32_t operations;
    atomic_uint ready;
    atomic_uint done;
    atomic_ullong put;
    atomic_ullong got;
    atomic_ullong fulls;
    atomic_uchar seen[CVM_MOST_MUTATORS][MOST]; /* how often each number came out */
    uint32_t many[CVM_MOST_MUTATORS];           /* how many numbers each thread has put */
} round;

static uint64_t number_of(size_t thread, uint64_t i) {
    return (uint64_t)thread << 32 | i;
}

static void join(const queue *queue, size_t thread) {
    if (thread == 0) {
        MUST(queue_make(queue) == QUEUE_DONE);
        MUST(cvm_set(queue->seat, HUB, FIELD, ANCHOR) == CVM_OK);
    }
    while (cvm_get(queue->seat, ANCHOR, HUB, FIELD) != CVM_REF) {
    }
}

static void meet(atomic_uint *count, size_t threads) {
    uint32_t rounds = 0;
    atomic_fetch_add(count, 1);
    while (atomic_load(count) < threads) {
        cvm_back_off(&rounds);
    }
}

/* Puts the thread's next number. */
static int put(const queue *queue, size_t thread, round *round) {
    queue_answer said = queue_put(queue, number_of(thread, round->many[thread]));
    if (said == QUEUE_FULL) {
        atomic_fetch_add(&round->fulls, 1);
        queue_let_go(queue);
        return 0;
    }
    MUST(said == QUEUE_DONE);
    round->many[thread]++;
    atomic_fetch_add(&round->put, 1);
    return 1;
}

/* Takes a number, if there is one; last[] has the last one of each thread that this one got, and one more. */
static int take(const queue *queue, round *round, uint64_t *last) {
    uint64_t number = 0;
    queue_answer said = queue_take(queue, &number);
    if (said == QUEUE_EMPTY) {
        queue_let_go(queue);
        return 0;
    }
    MUST(said == QUEUE_DONE);
    uint64_t from = number >> 32, i = number & UINT32_MAX;
    MUST(from < round->threads && i < MOST);
    MUST(i + 1 > last[from]);
    last[from] = i + 1;
    MUST(atomic_fetch_add(&round->seen[from][i], 1) == 0);
    atomic_fetch_add(&round->got, 1);
    return 1;
}

/*
 * Two operations in random order; no thread puts more where many numbers wait. Now and then a thread waits for a cycle first, which runs beside the
 * operations of the others.
 */
static void operate(const queue *queue, size_t thread, round *round, uint64_t *random, uint64_t *last) {
    uint64_t waiting = atomic_load(&round->put) - atomic_load(&round->got), r = random_next(random);
    if ((r >> 8) % EVERY == 0) {
        queue_let_go(queue);
        crew_await_cycle(queue->seat);
    }
    if (r % 2 == 0 && waiting < WAITING * round->threads) {
        put(queue, thread, round);
    } else {
        take(queue, round, last);
    }
}

static void play(cvm_seat *seat, size_t thread, void *context) {
    round *round = context;
    queue queue = {seat, ANCHOR, ROOM};
    uint64_t random = thread + 1, last[CVM_MOST_MUTATORS] = {0};
    join(&queue, thread);
    meet(&round->ready, round->threads);
    for (uint32_t i = 0; i < round->operations; i++) {
        operate(&queue, thread, round, &random, last);
    }
    queue_let_go(&queue);
    meet(&round->done, round->threads);
    while (take(&queue, round, last)) {
    }
    queue_leave(&queue);
}

static void check_all_came(const round *round) {
    for (size_t thread = 0; thread < round->threads; thread++) {
        for (uint32_t i = 0; i < round->many[thread]; i++) {
            MUST(atomic_load(&round->seen[thread][i]) == 1);
        }
    }
}

/* One thread against an array: until the heap is full, and then until it is empty, with a cycle in the middle, several times. */
static void play_alone(cvm_seat *seat, size_t thread, void *context) {
    queue queue = {seat, ANCHOR, ROOM};
    uint64_t next = 0, first = 0, number = 0;
    (void)thread;
    MUST(queue_make(&queue) == QUEUE_DONE);
    for (uint32_t time = 0; time < 3; time++) {
        while (queue_put(&queue, next) == QUEUE_DONE) {
            next++;
        }
        MUST(next > first);
        queue_let_go(&queue);
        for (uint64_t half = (first + next) / 2; first < next; first++) {
            if (first == half) {
                queue_let_go(&queue);
                crew_await_cycle(seat);
            }
            MUST(queue_take(&queue, &number) == QUEUE_DONE && number == first);
        }
        MUST(queue_take(&queue, &number) == QUEUE_EMPTY);
    }
    *(uint64_t *)context = next;
    queue_leave(&queue);
}

int main(int count, char **words) {
    uint32_t operations = count > 1 ? (uint32_t)strtoul(words[1], NULL, 10) : 4000;
    cvm_config alone = {.regions = 6, .region_words = 64, .mutators = 1, .helpers = 1, .reserve = 1};
    uint64_t put_alone = 0;
    MUST(operations <= MOST);
    crew_counts filled = crew_run(&alone, play_alone, &put_alone);
    MUST(pauses_that_end(&filled.pauses) >= 3 + filled.pauses.many[PAUSE_FULL]); /* the cycles that it has awaited */
    MUST(pauses_that_end(&filled.pauses) >= 6);                                  /* and one pause for each answer that the heap is full */
    printf("queue: one thread put and got %llu numbers, three times until the heap was full; %s\n", (unsigned long long)put_alone,
           pauses_told(&filled.pauses).text);
    for (size_t threads = 1; threads <= CVM_MOST_MUTATORS; threads++) {
        cvm_config config = {.regions = 6 + 3 * threads, .region_words = 64, .mutators = threads, .helpers = threads % 2, .reserve = 2};
        round *round = calloc(1, sizeof *round);
        MUST(round != NULL);
        round->threads = threads;
        round->operations = operations;
        crew_counts did = crew_run(&config, play, round);
        MUST(atomic_load(&round->put) == atomic_load(&round->got));
        check_all_came(round);
        printf("queue: %zu threads put and got %llu numbers, on %zu words: %llu objects made, %s, %llu calls waited, %llu found the heap full\n",
               threads, atomic_load(&round->put), config.regions * config.region_words, (unsigned long long)did.objects, pauses_told(&did.pauses).text,
               (unsigned long long)did.waits, atomic_load(&round->fulls));
        free(round);
    }
    return 0;
}
