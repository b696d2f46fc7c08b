/*
 * How long each kind of pause stops the mutators of a heap.
 *
 * usage: standstill REGIONS WORDS LIVES ORDER
 *
 * One thread has a mutator and the control. It fills four fifths of the heap with objects of 8 words, of which LIVES
 * per cent of the heap stay, in a list, evenly among those that it lets go. It asks for a cycle, and makes the
 * control's steps until that has ended; then it makes objects until one has to wait, and makes those of the full
 * collection. ORDER is `ahead` where each object of the list names a later one, which lies behind it, as marking goes
 * over the heap, or `behind`. A second thread has another mutator, loads a number all the time, and notes when a call
 * of it had to wait.
 *
 * It writes the live words, and of each kind of pause, in the order of pause_kind (library/users/common/pauses.h),
 * nine numbers: how many there were, and of the last one these, in seconds. First by the clock: how long the second
 * thread waited, or 0 where it saw nothing of it, and how long the pause was. Then of the processor time of the
 * control's thread: all of it, up to the change, which is all that loads words, the change, which is the step that
 * loads the last word and makes the new image, and all behind it, which stores words; and what the control did beside
 * the mutators since the pause before, as time and as steps. Steps are asked for 64 at a time, and a thousand once a
 * pause has had 512, so the borders are not exact: so many of one part may count as those of the next. A pause of
 * fewer steps than twice 64 could be overlooked: with 64 regions the shortest has 400.
 */
#define _POSIX_C_SOURCE 200809L
#include "../../library/users/common/pauses.h"
#include "common.h"

#include <sched.h>

/*
 * Steps that the control is asked for at once, in a pause that has had so many and before that; per cent of the heap that are filled; and the words of
 * an object.
 */
enum { STEPS = 1024, LONG = 512, FEW_STEPS = 64, USED = 80, OBJECT = 8, REFS = 2, NUMS = 3 };

/* A pause as the thread sees it that makes the control's steps. */
typedef struct pause_times {
    stop stop;
    double loads, change, stores;
    double beside, steps_beside;
} pause_times;

static bench heap;
static uint64_t keep, objects;
static int is_ahead;
static cvm_state control; /* what is told of it behind its last steps */
static uint64_t many[PAUSE_KINDS];
static pause_times last[PAUSE_KINDS];
static atomic_int watches, is_over;
static atomic_ullong calls; /* of the thread that watches */

/* Makes so many steps of the control. The answer is their processor time; they are added to *made, but for the last ones before one that waited. */
static double work(uint32_t steps, double *made) {
    static uint32_t rounds;
    cvm_seat *seat = &heap.seats[heap.config.mutators];
    double before = thread_time();
    cvm_status said = cvm_work(seat, steps);
    double took = thread_time() - before;
    must(!cvm_is_refusal(said) && cvm_look(seat, &control) == CVM_DONE, "the control works");
    if (said == CVM_AGAIN) {
        CVM_BACK_OFF(&rounds);
    } else {
        rounds = 0;
        *made += steps;
    }
    return took;
}

/* The places of a pause are P1, P2, PL, PS and P3. */
static int is_in_pause(void) {
    return control.place[0] == 'P';
}

static int is_at(const char *place) {
    return strcmp(control.place, place) == 0;
}

/*
 * Waits until the other thread has made some calls, so that it sees each pause alone. Who slept here would wake on that
 * thread's processor, and stop it.
 */
static void let_watch(void) {
    unsigned long long enough = atomic_load(&calls) + 1000;
    while (atomic_load(&calls) < enough) {
        sched_yield();
    }
}

/* Makes the control's steps up to the end of the next pause. */
static void go_through_pause(void) {
    pause_times it = {0};
    uint64_t phase = control.phase;
    double steps = 0;
    let_watch();
    do {
        it.stop.start = now();
        it.beside += work(FEW_STEPS, &it.steps_beside);
    } while (!is_in_pause());
    double *part = &it.loads;
    while (is_in_pause()) {
        int was_loading = is_at("PL");
        double took = work(steps < LONG ? FEW_STEPS : STEPS, &steps);
        if (was_loading && !is_at("PL")) {
            it.change = took;
            part = &it.stores;
        } else {
            *part += took;
        }
    }
    it.stop.end = now();
    pause_kind kind = pause_kind_of(phase, control.phase, 0);
    many[kind]++;
    last[kind] = it;
}

/* Puts the object in root 2 at the list's end, which root 3 names, or before its head, which root 1 names. */
static void join(cvm_seat *seat, int is_first) {
    if (is_first) {
        cvm_copy(seat, 1, 2);
        cvm_copy(seat, 3, 2);
    } else if (is_ahead) {
        cvm_set(seat, 3, 0, 2);
        cvm_copy(seat, 3, 2);
    } else {
        cvm_set(seat, 2, 0, 1);
        cvm_copy(seat, 1, 2);
    }
}

static void fill(cvm_seat *seat) {
    uint64_t kept = 0;
    for (uint64_t i = 0; i < objects; i++) {
        must(cvm_new(seat, 2, REFS, NUMS) == CVM_REF, "there is room");
        if (kept < (i + 1) * keep / objects) {
            join(seat, kept == 0);
            kept++;
        }
    }
    cvm_drop(seat, 2);
    cvm_drop(seat, 3);
}

/* A full collection, for an object that waits for room. */
static void collect_in_full(cvm_seat *seat) {
    cvm_value name;
    cvm_status said;
    do {
        said = cvm_try_new(seat, 2, REFS, NUMS);
    } while (said == CVM_REF);
    must(said == CVM_AGAIN, "an object waits");
    go_through_pause();
    must(cvm_wait(seat, &name) == CVM_REF, "there is room");
}

static void drive(cvm_seat *seat) {
    must(cvm_look(&heap.seats[heap.config.mutators], &control) == CVM_DONE, "the control is there");
    fill(seat);
    atomic_store(&watches, 1);
    must(cvm_gc(seat) == CVM_OK, "a cycle is asked for");
    do {
        go_through_pause();
    } while (control.phase != CVM_NO_CYCLE);
    collect_in_full(seat);
    atomic_store(&is_over, 1);
}

static void watch(runner *me) {
    cvm_value value;
    uint32_t rounds = 0;
    must(cvm_new(&me->seat, 1, 0, 1) == CVM_REF, "there is room");
    while (!atomic_load(&watches)) {
        CVM_BACK_OFF(&rounds);
    }
    while (!atomic_load(&is_over)) {
        timed_call(me, CVM_RD, 1, 0, 0, 0, &value);
        atomic_fetch_add(&calls, 1);
    }
}

static void body(runner *me) {
    if (me->number == 0) {
        drive(&me->seat);
    } else {
        watch(me);
    }
}

/* How long the second thread's call waited that waited longest in this pause. */
static double seen(const stop *pause) {
    const runner *other = &heap.runners[1];
    double most = 0, longest = 0;
    for (uint64_t i = 0; i < other->waits && i < MOST_STOPS; i++) {
        const stop *it = &other->stops[i];
        double start = it->start > pause->start ? it->start : pause->start, end = it->end < pause->end ? it->end : pause->end;
        if (end - start > most) {
            most = end - start;
            longest = it->end - it->start;
        }
    }
    return longest;
}

int main(int count, char **words) {
    static stop stops[MOST_STOPS];
    if (count != 5) {
        return 2;
    }
    open_heap(&heap, number_word(words, 1), number_word(words, 2), 2, 0);
    uint64_t size = heap.config.regions * heap.config.region_words;
    objects = size * USED / 100 / OBJECT;
    keep = size * number_word(words, 3) / 100 / OBJECT;
    is_ahead = strcmp(words[4], "ahead") == 0;
    heap.runners[1].stops = stops;
    run_mutators(&heap, body);
    printf("%llu\n", (unsigned long long)keep * OBJECT);
    for (int kind = 0; kind < PAUSE_KINDS; kind++) {
        const pause_times *it = &last[kind];
        printf("%llu %.9f %.9f %.9f %.9f %.9f %.9f %.9f %.0f\n", (unsigned long long)many[kind], seen(&it->stop), it->stop.end - it->stop.start,
               it->loads + it->change + it->stores, it->loads, it->change, it->stores, it->beside, it->steps_beside);
    }
    close_heap(&heap);
    return 0;
}
