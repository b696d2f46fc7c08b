/*
 * One thread that owns every seat of a heap, as the loop of a program that never waits: three tasks push numbers on a
 * stack of objects and pop them again, each call in pieces; the helpers and the control get their steps in between. A
 * random number says whose turn it is and how many steps it has, so that the same seed makes the same run, whatever
 * the machine does.
 *
 * Each reply is held to an array beside the heap. The heap is so small that allocations wait for collections in the
 * middle of other calls.
 */
#include "../common/crew.h"

enum { TASKS = 3, HELPERS = 2, SEATS = TASKS + HELPERS + 1, MOST = 4096, LONGEST = 8, STACK = 1, NODE = 2 };

/* A call that is to be made, and how it is to be answered. */
typedef struct order {
    cvm_op op;
    uint32_t words[4];
    uint64_t number;
    cvm_status reply;
} order;

/* A task: its stack beside the heap, and the orders that it has still to give. */
typedef struct task {
    cvm_seat *seat;
    uint64_t numbers[MOST];
    uint32_t depth;
    order orders[LONGEST];
    uint32_t next, many;
    int is_in_call;
    uint64_t calls, waits, fulls;
} task;

static void give(task *task, cvm_op op, uint32_t a, uint32_t b, uint32_t c, uint64_t number, cvm_status reply) {
    order order = {op, {a, b, c, 0}, number, reply};
    MUST(task->many < LONGEST);
    task->orders[task->many++] = order;
}

static void plan_push(task *task, uint64_t number) {
    give(task, CVM_NEW, NODE, 1, 1, 0, CVM_REF);
    give(task, CVM_WR, NODE, 0, 0, number, CVM_OK);
    give(task, CVM_SET, NODE, 0, STACK, 0, CVM_OK);
    give(task, CVM_COPY, STACK, NODE, 0, 0, CVM_OK);
    task->numbers[task->depth++] = number;
}

static void plan_pop(task *task) {
    task->depth--;
    give(task, CVM_RD, STACK, 0, 0, task->numbers[task->depth], CVM_NUMBER);
    give(task, CVM_GET, STACK, STACK, 0, 0, task->depth == 0 ? CVM_NULL : CVM_REF);
}

/* What a task does next, once all is answered: a push, a pop, or now and then to let the whole stack go. */
static void plan(task *task, uint64_t random) {
    task->next = task->many = 0;
    if (random % 512 == 0) {
        give(task, CVM_DROP, STACK, 0, 0, 0, CVM_OK);
        task->depth = 0;
    } else if (task->depth == 0 || (random % 8 < 5 && task->depth < MOST)) {
        plan_push(task, random);
    } else {
        plan_pop(task);
    }
}

/* No room: the push is given up, and all of the stack. */
static void give_up(task *task) {
    task->fulls++;
    task->next = task->many = 0;
    task->depth = 0;
    give(task, CVM_DROP, STACK, 0, 0, 0, CVM_OK);
    give(task, CVM_DROP, NODE, 0, 0, 0, CVM_OK);
}

static void take_reply(task *task, cvm_status reply, const cvm_value *value) {
    const order *order = &task->orders[task->next];
    task->is_in_call = 0;
    task->calls++;
    if (order->op == CVM_NEW && reply == CVM_FULL) {
        give_up(task);
        return;
    }
    MUST(reply == order->reply);
    MUST(reply != CVM_NUMBER || value->number == order->number);
    task->next++;
}

/* A turn of a task: it begins its next call, or goes on with it for some steps. It never waits. */
static void turn(task *task, uint32_t steps, uint64_t random) {
    cvm_value value;
    if (!task->is_in_call) {
        if (task->next == task->many) {
            plan(task, random);
        }
        const order *order = &task->orders[task->next];
        MUST(cvm_begin(task->seat, order->op, order->words[0], order->words[1], order->words[2], order->words[3], order->number) == CVM_DONE);
        task->is_in_call = 1;
    }
    cvm_status said = cvm_go(task->seat, steps, &value);
    if (cvm_is_reply(said)) {
        take_reply(task, said, &value);
    } else if (said == CVM_AGAIN) {
        task->waits++;
    } else {
        MUST(said == CVM_MORE);
    }
}

/* The loop: each turn is that of one seat. */
static void loop(task *tasks, cvm_seat *seats, pauses *pauses, uint64_t turns, uint64_t *random) {
    for (uint64_t i = 0; i < turns; i++) {
        uint64_t r = random_next(random);
        uint32_t seat = (uint32_t)(r >> 32) % SEATS, steps = 1 + (uint32_t)(r >> 40) % 24;
        if (seat < TASKS) {
            turn(&tasks[seat], steps, r >> 8);
        } else if (seat < SEATS - 1) {
            MUST(!cvm_is_refusal(cvm_work(&seats[seat], steps)));
        } else {
            MUST(!cvm_is_refusal(pauses_work(pauses, &seats[seat], 8 * steps)));
        }
    }
}

/* Goes on with all calls that are in progress, one beside the other, since a pause waits for each of them. */
static void end_calls(task *tasks, cvm_seat *seats) {
    int in_call = 1;
    while (in_call) {
        in_call = 0;
        for (size_t i = 0; i < TASKS; i++) {
            if (tasks[i].is_in_call) {
                turn(&tasks[i], 8, 0);
                in_call = 1;
            }
        }
        for (size_t i = TASKS; i < SEATS; i++) {
            MUST(!cvm_is_refusal(cvm_work(&seats[i], 64)));
        }
    }
}

/* Ends what is in progress, then the mutators, then the workers. */
static void end(task *tasks, cvm_seat *seats) {
    cvm_value value;
    end_calls(tasks, seats);
    for (size_t i = 0; i < TASKS; i++) {
        MUST(cvm_end(&seats[i]) == CVM_DONE);
        MUST(cvm_wait_working(&seats[i], seats + TASKS, HELPERS + 1, &value) == CVM_ENDED);
    }
    for (size_t ended = 0; ended < HELPERS + 1;) {
        ended = 0;
        for (size_t i = TASKS; i < SEATS; i++) { /* in turns, since the control may wait for a helper */
            ended += cvm_work(&seats[i], 100) == CVM_ENDED;
        }
    }
    MUST(cvm_close_all(seats, SEATS) == CVM_DONE);
}

/*
 * An allocation that would wait says so, the call stays in progress, and is answered once the control has had its
 * steps.
 */
static void try_new(void) {
    cvm_config config = {.regions = 4, .region_words = 64, .mutators = 1, .helpers = 0, .reserve = 0};
    cvm_seat seats[2] = {{0}};
    cvm_value value;
    cvm_status said = CVM_REF;
    uint64_t made = 0;
    MUST(cvm_open(&config, seats, 2) == CVM_DONE);
    while (said == CVM_REF) {
        said = cvm_try_new(&seats[0], 1, 16, 16);
        made += said == CVM_REF;
    }
    MUST(said == CVM_AGAIN && made == 3);
    MUST(cvm_poll(&seats[0], &value) == CVM_AGAIN);
    MUST(cvm_try_new(&seats[0], 1, 0, 0) == CVM_BUSY);
    MUST(cvm_wait_working(&seats[0], &seats[1], 1, &value) == CVM_REF && value.thread == 1 && value.count == 4);
    MUST(cvm_close(&seats[0]) == CVM_DONE && cvm_close(&seats[1]) == CVM_DONE);
}

/*
 * A heap of one mutator and the control, which makes steps only here, so that each pause is known. Of nine objects that fill a region one
 * is kept.
 */
typedef struct quiet {
    cvm_seat seats[2];
    pauses pauses;
} quiet;

static void open_quiet(quiet *heap, uint32_t regions_used) {
    cvm_config config = {.regions = 8, .region_words = 64, .mutators = 1, .helpers = 0, .reserve = 0};
    *heap = (quiet){.pauses = pauses_none()};
    MUST(cvm_open(&config, heap->seats, 2) == CVM_DONE);
    for (uint32_t i = 0; i < 9 * regions_used; i++) {
        MUST(cvm_new(&heap->seats[0], 1, 2, 2) == CVM_REF);
        MUST(i % 9 != 0 || cvm_set(&heap->seats[0], 0, i / 9, 1) == CVM_OK);
    }
}

static void close_quiet(quiet *heap) {
    MUST(cvm_close(&heap->seats[0]) == CVM_DONE && cvm_close(&heap->seats[1]) == CVM_DONE);
}

/* Gives the control steps until it stands outside of a pause, in this phase. */
static void work_until(quiet *heap, cvm_phase phase) {
    do {
        MUST(!cvm_is_refusal(pauses_work(&heap->pauses, &heap->seats[1], 1)));
    } while (heap->pauses.phase != phase || strcmp(heap->pauses.place, "I0") != 0);
}

/* Asks for a cycle. */
static void ask(quiet *heap) {
    MUST(cvm_gc(&heap->seats[0]) == CVM_OK);
}

/* Makes objects, as large as can be, until one waits for room. */
static void make_until_it_waits(quiet *heap) {
    cvm_status said = CVM_REF;
    while (said == CVM_REF) {
        said = cvm_try_new(&heap->seats[0], 1, 16, 16);
    }
    MUST(said == CVM_AGAIN);
}

/* The pauses have been these, and the call that has waited is answered. */
static void made(quiet *heap, uint64_t all, pause_kind kind, int has_waited) {
    cvm_value value;
    MUST(pauses_all(&heap->pauses) == all && heap->pauses.many[kind] == 1);
    MUST(!has_waited || cvm_wait(&heap->seats[0], &value) == CVM_REF);
}

/* A cycle goes through its phases. */
static void whole(void) {
    quiet heap;
    open_quiet(&heap, 3);
    ask(&heap);
    for (int phase = 1; phase <= 3; phase++) {
        work_until(&heap, (cvm_phase)phase);
        MUST(pauses_all(&heap.pauses) == (uint64_t)phase);
    }
    work_until(&heap, CVM_NO_CYCLE);
    MUST(heap.pauses.many[PAUSE_BEGINS] == 1 && heap.pauses.many[PAUSE_EVACUATION] == 1 && heap.pauses.many[PAUSE_UPDATING] == 1);
    made(&heap, 4, PAUSE_WHOLE, 0);
    close_quiet(&heap);
}

/* A cycle has nothing to evacuate, and ends with its marking. */
static void marked(void) {
    quiet heap;
    open_quiet(&heap, 0);
    ask(&heap);
    work_until(&heap, CVM_MARKING);
    work_until(&heap, CVM_NO_CYCLE);
    made(&heap, 2, PAUSE_MARKED, 0);
    close_quiet(&heap);
}

/* An object finds no room in a phase of a cycle, which a pause cuts short. */
static void cut(cvm_phase phase) {
    quiet heap;
    open_quiet(&heap, 3);
    ask(&heap);
    for (int before = 1; before <= (int)phase; before++) {
        work_until(&heap, (cvm_phase)before);
    }
    make_until_it_waits(&heap);
    work_until(&heap, CVM_NO_CYCLE);
    made(&heap, (uint64_t)phase + 1, PAUSE_CUT, 1);
    close_quiet(&heap);
}

/* An object finds no room while no cycle runs: the heap is collected in full. */
static void full(void) {
    quiet heap;
    open_quiet(&heap, 3);
    make_until_it_waits(&heap);
    while (pauses_all(&heap.pauses) == 0) {
        work_until(&heap, CVM_NO_CYCLE);
    }
    made(&heap, 1, PAUSE_FULL, 1);
    close_quiet(&heap);
}

/* Each kind of pause. */
static void kinds(void) {
    whole();
    marked();
    cut(CVM_MARKING);
    cut(CVM_EVACUATING);
    cut(CVM_UPDATING);
    full();
}

/* Makes so many objects, and waits for others where there is no room; the workers' own seats are empty where threads have them. */
static void make_many(cvm_seat *seats, uint64_t many, int by_hand) {
    cvm_value value;
    for (uint64_t i = 0; i < many; i++) {
        MUST(cvm_begin(&seats[0], CVM_NEW, 1, 16, 0, 0, 0) == CVM_DONE);
        cvm_status said = by_hand ? cvm_wait_working(&seats[0], seats + 1, 2, &value) : cvm_wait(&seats[0], &value);
        MUST(said == CVM_REF);
    }
}

/* Helper and control go from this thread to threads of their own, back in the middle of whatever they do, and out again. */
static void stop_and_go_on(void) {
    cvm_config config = {.regions = 6, .region_words = 64, .mutators = 1, .helpers = 1, .reserve = 1};
    cvm_seat seats[3] = {{0}};
    cvm_workers *workers = NULL;
    MUST(cvm_open(&config, seats, 3) == CVM_DONE);
    for (int time = 0; time < 20; time++) {
        make_many(seats, 50, 1);
        MUST(cvm_start_workers(seats + 1, 2, &workers) == CVM_DONE);
        MUST(!cvm_is_open(&seats[1]) && !cvm_is_open(&seats[2]));
        make_many(seats, 50, 0);
        cvm_stop_workers(workers);
        MUST(cvm_is_open(&seats[1]) && cvm_is_open(&seats[2]));
    }
    MUST(cvm_start_workers(seats + 1, 2, &workers) == CVM_DONE);
    MUST(cvm_finish(&seats[0]) == CVM_ENDED);
    cvm_join_workers(workers);
    MUST(cvm_close_all(seats, 3) == CVM_DONE);
}

int main(int count, char **words) {
    uint64_t turns = count > 1 ? strtoull(words[1], NULL, 10) : 400000;
    static task tasks[TASKS];
    pauses seen = pauses_none();
    try_new();
    kinds();
    stop_and_go_on();
    for (uint64_t seed = 1; seed <= 3; seed++) {
        cvm_config config = {.regions = 8, .region_words = 64, .mutators = TASKS, .helpers = HELPERS, .reserve = 1};
        cvm_seat seats[SEATS] = {{0}};
        uint64_t random = seed, calls = 0, waits = 0, fulls = 0;
        MUST(cvm_open(&config, seats, SEATS) == CVM_DONE);
        for (size_t i = 0; i < TASKS; i++) {
            tasks[i] = (task){.seat = &seats[i]};
        }
        pauses pauses = pauses_none();
        loop(tasks, seats, &pauses, turns, &random);
        end(tasks, seats);
        for (size_t i = 0; i < TASKS; i++) {
            calls += tasks[i].calls;
            waits += tasks[i].waits;
            fulls += tasks[i].fulls;
        }
        printf("loop: seed %llu: %llu calls in pieces, %s, %llu turns that had to wait, %llu answers that the heap is full\n",
               (unsigned long long)seed, (unsigned long long)calls, pauses_told(&pauses).text, (unsigned long long)waits, (unsigned long long)fulls);
        pauses_add(&seen, pauses.many);
    }
    MUST(turns < 30000 || pauses_have_each_kind(&seen));
    return 0;
}
