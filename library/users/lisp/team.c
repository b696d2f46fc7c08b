#define _POSIX_C_SOURCE 200809L

#include "team.h"

#include <pthread.h>
#include <stdlib.h>
#include <time.h>

/* One thread of a team. */
typedef struct member {
    const team *of;
    machine m;
    bool done;
    char *printed;
    size_t bytes;
    pthread_t thread;
} member;

static double now(clockid_t of) {
    struct timespec time = {0};
    (void)clock_gettime(of, &time);
    return (double)time.tv_sec + (double)time.tv_nsec / 1e9;
}

static bool run_programs(member *me) {
    for (size_t i = 0; i < me->of->count; i++) {
        const program *next = &me->of->programs[i];
        if (!run_text(&me->m, next->text, next->length)) {
            fprintf(me->m.out, "%s ended there\n", next->name);
            return false;
        }
    }
    return true;
}

static bool begin_member(member *me, memory_heap *heap, uint32_t number) {
    FILE *out = me->of->direct != NULL ? me->of->direct : open_memstream(&me->printed, &me->bytes);
    if (out == NULL) {
        return false;
    }
    bool begun = begin_machine(&me->m, memory_seat_of(heap, number), number + 1, (uint32_t)me->of->sizes.mutators, out);
    me->m.every = me->of->every;
    if (!begun) {
        fputs("the heap has no room for the names of the Lisp\n", out);
    }
    return begun;
}

static void end_member(member *me, memory_heap *heap, uint32_t number) {
    if (me->m.out != NULL && me->of->direct == NULL) {
        fclose(me->m.out);
    }
    memory_leave(memory_seat_of(heap, number));
}

static void *live(void *context) {
    member *me = context;
    memory_thread_begins();
    me->done = run_programs(me);
    memory_leave(me->m.seat);
    memory_thread_ends();
    return NULL;
}

/* Each member in a thread of its own, but for the first, which is this one. A thread that is not started is a member that is not done. */
static void run_members(member *members, size_t count) {
    bool started[MOST_THREADS] = {false};
    for (size_t i = 1; i < count; i++) {
        started[i] = pthread_create(&members[i].thread, NULL, live, &members[i]) == 0;
    }
    members[0].done = run_programs(&members[0]);
    memory_leave(members[0].m.seat);
    for (size_t i = 1; i < count; i++) {
        if (started[i]) {
            (void)pthread_join(members[i].thread, NULL);
        }
    }
}

/* Whether all machines have begun; only then they run, since programs may wait for one another. */
static bool begin_members(const team *of, member *members, memory_heap *heap) {
    bool begun = true;
    for (uint32_t i = 0; i < of->sizes.mutators; i++) {
        members[i].of = of;
        begun = begun && begin_member(&members[i], heap, i);
    }
    return begun;
}

static void end_members(member *members, memory_heap *heap, size_t count, report *came) {
    for (uint32_t i = 0; i < count; i++) {
        end_member(&members[i], heap, i);
        came->printed[i] = members[i].printed;
        came->done[i] = members[i].done;
    }
}

void run_team(const team *of, report *came) {
    static memory_heap heap;
    member members[MOST_THREADS] = {0};
    report empty = {0};
    *came = empty;
    if (of->sizes.mutators > MOST_THREADS || (of->direct != NULL && of->sizes.mutators > 1)) {
        came->refused = "threads are 1 to 8, and only one prints at once";
        return;
    }
    came->refused = memory_open(&heap, &of->sizes);
    if (came->refused != NULL) {
        return;
    }
    bool begun = begin_members(of, members, &heap);
    double from = now(CLOCK_MONOTONIC);
    double used = now(CLOCK_PROCESS_CPUTIME_ID);
    if (begun) {
        run_members(members, of->sizes.mutators);
    }
    came->seconds = now(CLOCK_MONOTONIC) - from;
    came->processor = now(CLOCK_PROCESS_CPUTIME_ID) - used;
    end_members(members, &heap, of->sizes.mutators, came);
    came->counts = memory_close(&heap);
}

void free_report(report *came) {
    for (size_t i = 0; i < MOST_THREADS; i++) {
        free(came->printed[i]);
        came->printed[i] = NULL;
    }
}
