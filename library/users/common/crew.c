#include "crew.h"

#include <pthread.h>
#include <stdalign.h>
#include <stdatomic.h>

static atomic_ullong waits;

/* A call that waits calls this with 0 rounds at first. */
void waits_back_off(uint32_t *rounds) {
    if (*rounds == 0) {
        atomic_fetch_add(&waits, 1);
    }
    cvm_back_off(rounds);
}

/* A thread, and its mutator, on a cache line of its own. */
typedef struct member {
    alignas(64) cvm_seat seat;
    size_t number;
    crew_body *body;
    void *context;
    uint64_t objects; /* that it made */
    pthread_t thread;
} member;

static void *live(void *context) {
    member *me = context;
    cvm_state state;
    me->body(&me->seat, me->number, me->context);
    MUST(cvm_look(&me->seat, &state) == CVM_DONE);
    me->objects = state.made;
    MUST(cvm_finish(&me->seat) == CVM_ENDED);
    return NULL;
}

static uint64_t run_members(cvm_seat *seats, size_t count, crew_body *body, void *context) {
    static member members[CVM_MOST_MUTATORS];
    uint64_t objects = 0;
    for (size_t i = 0; i < count; i++) {
        members[i].number = i;
        members[i].body = body;
        members[i].context = context;
        cvm_move(&members[i].seat, &seats[i]);
        MUST(pthread_create(&members[i].thread, NULL, live, &members[i]) == 0);
    }
    for (size_t i = 0; i < count; i++) {
        MUST(pthread_join(members[i].thread, NULL) == 0);
        cvm_move(&seats[i], &members[i].seat);
        objects += members[i].objects;
    }
    return objects;
}

/* The pauses so far behind which no cycle runs: told before any mutator goes on that one of them has stopped. */
static atomic_ullong ended;

void crew_await_cycle(cvm_seat *seat) {
    unsigned long long before = atomic_load(&ended);
    uint32_t rounds = 0;
    MUST(cvm_gc(seat) == CVM_OK);
    while (atomic_load(&ended) == before) {
        cvm_back_off(&rounds);
    }
}

/* The thread of the control, which counts the pauses. */
typedef struct collector {
    alignas(64) cvm_seat seat;
    pauses pauses;
    pthread_t thread;
} collector;

static void *collect(void *context) {
    collector *me = context;
    uint32_t rounds = 0;
    cvm_status said = CVM_MORE;
    while (said != CVM_ENDED) {
        said = pauses_work(&me->pauses, &me->seat, 1);
        MUST(!cvm_is_refusal(said));
        atomic_store(&ended, pauses_that_end(&me->pauses));
        if (said == CVM_AGAIN) {
            cvm_back_off(&rounds);
        } else {
            rounds = 0;
        }
    }
    return NULL;
}

crew_counts crew_run(const cvm_config *config, crew_body *body, void *context) {
    static collector collector;
    cvm_seat seats[CVM_MOST_SEATS] = {{0}};
    size_t count = cvm_seat_count(config), mutators = config->mutators;
    cvm_workers *helpers = NULL;
    atomic_store(&waits, 0);
    atomic_store(&ended, 0);
    MUST(cvm_open(config, seats, count) == CVM_DONE);
    MUST(cvm_start_workers(seats + mutators, config->helpers, &helpers) == CVM_DONE);
    collector.pauses = pauses_none();
    cvm_move(&collector.seat, &seats[count - 1]);
    MUST(pthread_create(&collector.thread, NULL, collect, &collector) == 0);
    crew_counts counts = {.objects = run_members(seats, mutators, body, context)};
    MUST(pthread_join(collector.thread, NULL) == 0);
    cvm_join_workers(helpers);
    cvm_move(&seats[count - 1], &collector.seat);
    for (size_t i = 0; i < count; i++) {
        MUST(cvm_close(&seats[i]) == CVM_DONE);
    }
    counts.waits = atomic_load(&waits);
    counts.pauses = collector.pauses;
    return counts;
}
