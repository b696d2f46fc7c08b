/*
 * Random commands of three mutators, one call after the other, held to a graph beside the heap that never moves an
 * object: each reply, with each name and number that belongs to it, has to be the graph's. Fields and numbers that
 * are not there and null roots are among them. Helper and control make steps of their own in between, so that objects
 * are moved between any two calls. Two things the graph does not know, and takes as they come: whether there is room
 * (CVM_FULL), and at which address an object is that nothing pins yet. As long as a slot holds it, it has to stay there,
 * and no other object that is pinned may have the same.
 */
#include "../common/crew.h"

enum { REGIONS = 6, REGION_WORDS = 64, MUTATORS = 3, SEATS = MUTATORS + 2, MOST_OBJECTS = 1 << 16, HUB = 1, NOTHING = 0 };

/* An object of the graph. Objects are numbered from 1, so that 0 is null; the hub is the first. */
typedef struct object {
    uint64_t thread, count;
    uint32_t references, numbers;
    uint32_t reference[CVM_MOST_FIELDS];
    uint64_t number[CVM_MOST_FIELDS];
} object;

typedef struct graph {
    object objects[MOST_OBJECTS];
    uint32_t many;
    uint64_t made[MUTATORS];
    uint32_t roots[MUTATORS][CVM_ROOTS];
    uint32_t pins[MUTATORS][CVM_PINS];
    uint64_t places[MUTATORS][CVM_PINS];
    pauses pauses; /* of the heap beside it */
} graph;

/* A command, and what it was answered. */
typedef struct call {
    cvm_op op;
    uint32_t a, b, c, d;
    uint64_t value;
    cvm_status reply;
    cvm_value answer;
} call;

static void begin_graph(graph *graph) {
    graph->many = HUB;
    graph->pauses = pauses_none();
    graph->objects[HUB] = (object){.count = 1, .references = CVM_MOST_FIELDS};
    for (size_t i = 0; i < MUTATORS; i++) {
        graph->made[i] = 0;
        for (size_t root = 0; root < CVM_ROOTS; root++) {
            graph->roots[i][root] = root == 0 ? HUB : NOTHING;
        }
        for (size_t slot = 0; slot < CVM_PINS; slot++) {
            graph->pins[i][slot] = NOTHING;
        }
    }
}

static void reply(call *call, cvm_status said) {
    call->reply = said;
    call->answer = (cvm_value){0, 0, 0};
}

/* The reply that names an object, or null. */
static void reply_reference(const graph *graph, call *call, uint32_t object) {
    reply(call, object == NOTHING ? CVM_NULL : CVM_REF);
    if (object != NOTHING) {
        call->answer.thread = graph->objects[object].thread;
        call->answer.count = graph->objects[object].count;
    }
}

static uint32_t *reference_at(graph *graph, uint32_t object, uint32_t field) {
    return object != NOTHING && field < graph->objects[object].references ? &graph->objects[object].reference[field] : NULL;
}

static uint64_t *number_at(graph *graph, uint32_t object, uint32_t index) {
    return object != NOTHING && index < graph->objects[object].numbers ? &graph->objects[object].number[index] : NULL;
}

static void make(graph *graph, size_t thread, call *call) {
    MUST(graph->many + 1 < MOST_OBJECTS);
    uint32_t made = ++graph->many;
    graph->objects[made] = (object){.thread = thread + 1, .count = ++graph->made[thread], .references = call->b, .numbers = call->c};
    graph->roots[thread][call->a] = made;
    reply_reference(graph, call, made);
}

/* Commands on a reference of an object. */
static void on_field(graph *graph, uint32_t *roots, call *call) {
    int is_load = call->op == CVM_GET || call->op == CVM_XCHG;
    uint32_t *field = reference_at(graph, roots[is_load ? call->b : call->a], is_load ? call->c : call->b);
    if (field == NULL) {
        reply(call, CVM_BAD);
    } else if (is_load) {
        uint32_t found = *field;
        *field = call->op == CVM_XCHG ? roots[call->d] : found;
        roots[call->a] = found;
        reply_reference(graph, call, found);
    } else if (call->op == CVM_SET) {
        *field = roots[call->c];
        reply(call, CVM_OK);
    } else {
        int is_equal = *field == roots[call->c];
        *field = is_equal ? roots[call->d] : *field;
        reply(call, is_equal ? CVM_YES : CVM_NO);
    }
}

static void on_number(graph *graph, const uint32_t *roots, call *call) {
    uint64_t *number = number_at(graph, roots[call->a], call->b);
    reply(call, number == NULL ? CVM_BAD : call->op == CVM_RD ? CVM_NUMBER : CVM_OK);
    if (number != NULL && call->op == CVM_RD) {
        call->answer.number = *number;
    } else if (number != NULL) {
        *number = call->value;
    }
}

/* Whether an object may be pinned at an address: it is the address of each slot that holds it, and of no other object. */
static int may_be_pinned(const graph *graph, uint32_t object, uint64_t place) {
    for (size_t thread = 0; thread < MUTATORS; thread++) {
        for (size_t slot = 0; slot < CVM_PINS; slot++) {
            uint32_t held = graph->pins[thread][slot];
            if (held != NOTHING && (held == object) != (graph->places[thread][slot] == place)) {
                return 0;
            }
        }
    }
    return 1;
}

/* Commands on a pin slot. Of a pin the heap has told the address. */
static void on_slot(graph *graph, size_t thread, call *call, uint64_t place) {
    uint32_t *pin = &graph->pins[thread][call->a];
    int is_pin = call->op == CVM_PIN;
    if (is_pin ? *pin != NOTHING || graph->roots[thread][call->b] == NOTHING : *pin == NOTHING) {
        reply(call, CVM_BAD);
        return;
    }
    uint32_t object = is_pin ? graph->roots[thread][call->b] : NOTHING;
    reply(call, is_pin ? CVM_AT : CVM_OK);
    if (is_pin) {
        MUST(place >= REGION_WORDS && place < (REGIONS + 1) * REGION_WORDS && may_be_pinned(graph, object, place));
        graph->places[thread][call->a] = place;
        call->answer.number = place;
    }
    *pin = object;
}

/* What the graph answers, and makes of itself. */
static void play(graph *graph, size_t thread, call *call, uint64_t place) {
    uint32_t *roots = graph->roots[thread];
    switch (call->op) {
    case CVM_NEW: make(graph, thread, call); break;
    case CVM_RD:
    case CVM_WR: on_number(graph, roots, call); break;
    case CVM_COPY:
        roots[call->a] = roots[call->b];
        reply(call, CVM_OK);
        break;
    case CVM_DROP:
        roots[call->a] = NOTHING;
        reply(call, CVM_OK);
        break;
    case CVM_SAME: reply(call, roots[call->a] == roots[call->b] ? CVM_YES : CVM_NO); break;
    case CVM_GC: reply(call, CVM_OK); break;
    case CVM_PIN:
    case CVM_UNPIN: on_slot(graph, thread, call, place); break;
    default: on_field(graph, roots, call);
    }
}

/* A command of random words, most of them within what objects have. */
static call random_call(uint64_t *random) {
    uint64_t r = random_next(random);
    uint32_t words[3] = {(uint32_t)(r >> 8) % CVM_ROOTS, (uint32_t)(r >> 16) % CVM_ROOTS, (uint32_t)(r >> 24) % CVM_ROOTS};
    uint32_t field = (uint32_t)(r >> 32) % 8 == 0 ? (uint32_t)(r >> 40) % 32 : (uint32_t)(r >> 40) % 3;
    call call = {.op = (cvm_op)(r % 13), .a = words[0], .b = words[1], .c = words[2], .d = (uint32_t)(r >> 48) % CVM_ROOTS, .value = random_next(random)};
    if (call.op == CVM_NEW) {
        call.b = (uint32_t)(r >> 40) % 4 == 0 ? 16 : words[1] % 4;
        call.c = (uint32_t)(r >> 42) % 4 == 0 ? 16 : words[2] % 4;
    } else if (call.op == CVM_GET || call.op == CVM_XCHG) {
        call.c = field;
    } else if (call.op == CVM_PIN || call.op == CVM_UNPIN) {
        call.a = words[0] % CVM_PINS;
    } else if (call.op != CVM_COPY && call.op != CVM_SAME) {
        call.b = field;
    }
    return call;
}

/* Helper and control make some steps. */
static void work(cvm_seat *seats, graph *graph, uint32_t helper, uint32_t control) {
    MUST(!cvm_is_refusal(cvm_work(&seats[MUTATORS], helper)));
    MUST(!cvm_is_refusal(pauses_work(&graph->pauses, &seats[MUTATORS + 1], control)));
}

/* One call of a mutator, on the heap and on the graph. */
static cvm_status call_both(cvm_seat *seats, size_t thread, graph *graph, call *call) {
    cvm_value answer;
    cvm_status said = cvm_begin(&seats[thread], call->op, call->a, call->b, call->c, call->d, call->value);
    MUST(said == CVM_DONE);
    while ((said = cvm_poll(&seats[thread], &answer)) == CVM_AGAIN) {
        work(seats, graph, 64, 64);
    }
    if (said == CVM_FULL && call->op == CVM_NEW) {
        return said;
    }
    play(graph, thread, call, answer.number);
    MUST(said == call->reply);
    MUST(answer.number == call->answer.number && answer.thread == call->answer.thread && answer.count == call->answer.count);
    return said;
}

/* The heap is full: a mutator lets most of its roots go. */
static void let_go(cvm_seat *seats, size_t thread, graph *graph) {
    for (uint32_t slot = 0; slot < CVM_PINS; slot++) {
        call unpin = {.op = CVM_UNPIN, .a = slot};
        call_both(seats, thread, graph, &unpin);
    }
    for (uint32_t root = 1; root < CVM_ROOTS; root++) {
        call drop = {.op = CVM_DROP, .a = root};
        call_both(seats, thread, graph, &drop);
    }
    for (uint32_t field = 0; field < CVM_MOST_FIELDS; field++) {
        call clear = {.op = CVM_SET, .a = 0, .b = field, .c = 1};
        call_both(seats, thread, graph, &clear);
    }
}

static uint64_t run(uint64_t seed, uint64_t calls, uint64_t *fulls, pauses *pauses) {
    static graph graph;
    cvm_config config = {.regions = REGIONS, .region_words = REGION_WORDS, .mutators = MUTATORS, .helpers = 1, .reserve = 1};
    cvm_seat seats[SEATS] = {{0}};
    uint64_t random = seed, made = 0;
    begin_graph(&graph);
    MUST(cvm_open(&config, seats, SEATS) == CVM_DONE);
    for (uint64_t i = 0; i < calls && graph.many + 64 < MOST_OBJECTS; i++) {
        size_t thread = random_next(&random) % MUTATORS;
        call call = random_call(&random);
        if (call_both(seats, thread, &graph, &call) == CVM_FULL) {
            ++*fulls;
            let_go(seats, thread, &graph);
        }
        uint64_t steps = random_next(&random);
        work(seats, &graph, (uint32_t)steps % 64, (uint32_t)(steps >> 8) % 64);
    }
    pauses_add(pauses, graph.pauses.many);
    for (size_t i = 0; i < SEATS; i++) {
        made += i < MUTATORS ? graph.made[i] : 0;
        MUST(cvm_close(&seats[i]) == CVM_DONE);
    }
    return made;
}

int main(int count, char **words) {
    uint64_t calls = count > 1 ? strtoull(words[1], NULL, 10) : 100000, made = 0, fulls = 0;
    pauses pauses = pauses_none();
    for (uint64_t seed = 1; seed <= 3; seed++) {
        made += run(seed, calls, &fulls, &pauses);
    }
    MUST(calls < 30000 || pauses_have_each_kind(&pauses));
    printf("model: %llu random calls with the replies of a graph; %llu objects, %s, %llu answers that the heap is full\n",
           (unsigned long long)(3 * calls), (unsigned long long)made, pauses_told(&pauses).text, (unsigned long long)fulls);
    return 0;
}
