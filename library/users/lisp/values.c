/* Making values, telling them apart, and errors. */
#include "lisp.h"

#include <string.h>

enum { KIND_BITS = 4 };

uint64_t word_of(machine *m, root value) {
    uint64_t found = NOTHING;
    memory_rd(m->seat, value, 0, &found);
    return found;
}

kind kind_of(uint64_t of) {
    return (kind)(of & ((1u << KIND_BITS) - 1));
}

int64_t rest_of(uint64_t of) {
    return (int64_t)of >> KIND_BITS;
}

uint64_t word(kind of, int64_t rest) {
    return (uint64_t)rest << KIND_BITS | (uint64_t)of;
}

bool is_constant(machine *m, root value, constant which) {
    return word_of(m, value) == word(CONSTANT, which);
}

bool is_pair(machine *m, root value) {
    return kind_of(word_of(m, value)) == PAIR;
}

void load_constant(machine *m, root dst, constant which) {
    memory_get(m->seat, dst, OWN, which);
}

bool make_object(machine *m, root dst, uint32_t refs, uint32_t nums) {
    memory_made made = memory_new(m->seat, dst, refs, nums);
    return made == MEMORY_MADE ? true : fail_full(m);
}

bool make_number(machine *m, root dst, int64_t number) {
    uint64_t told = word(NUMBER, number);
    if (rest_of(told) != number) {
        return fail(m, "number too large", NIL);
    }
    return make_object(m, dst, 0, 1) && memory_wr(m->seat, dst, 0, told);
}

/* A pair is of kind 0, as a new object is. */
bool make_pair(machine *m, root dst, root car, root cdr) {
    root made = dst == car || dst == cdr ? Z : dst;
    if (!make_object(m, made, 2, 1)) {
        return false;
    }
    memory_set(m->seat, made, CAR, car);
    memory_set(m->seat, made, CDR, cdr);
    if (made != dst) {
        memory_copy(m->seat, dst, made);
    }
    return true;
}

bool take_apart(machine *m, root pair, root car, root cdr) {
    if (!is_pair(m, pair)) {
        return false;
    }
    if (car == pair) {
        memory_get(m->seat, cdr, pair, CDR);
        memory_get(m->seat, car, pair, CAR);
    } else {
        memory_get(m->seat, car, pair, CAR);
        memory_get(m->seat, cdr, pair, CDR);
    }
    return true;
}

/* An error without a message. Where there is no room for it, that is the error. */
static bool make_fault(machine *m, root dst, root about) {
    if (!make_object(m, dst, 3, 1)) {
        return false;
    }
    memory_wr(m->seat, dst, 0, word(FAULT, 0));
    memory_set(m->seat, dst, FAULT_ABOUT, about);
    return true;
}

/* The error is made in a root that holds nothing that it is about. */
bool fail(machine *m, const char *message, root about) {
    root made = about == X ? Y : X;
    m->settled = false;
    if (!make_fault(m, made, about)) {
        return false;
    }
    memory_copy(m->seat, VAL, made);
    if (!make_string(m, X, message, strlen(message))) {
        return false;
    }
    memory_set(m->seat, VAL, FAULT_MESSAGE, X);
    return false;
}

bool fail_full(machine *m) {
    m->settled = false;
    memory_get(m->seat, VAL, OWN, OWN_FAULT);
    memory_set(m->seat, VAL, FAULT_CODE, NIL);
    return false;
}

bool is_own_fault(machine *m) {
    memory_get(m->seat, Z, OWN, OWN_FAULT);
    return memory_same(m->seat, VAL, Z);
}

/* Makes the constants in the object of X. */
static bool make_constants(machine *m) {
    if (!make_object(m, X, CONSTANTS, 0)) {
        return false;
    }
    for (int which = 0; which < CONSTANTS; which++) {
        if (!make_object(m, Y, 0, 1)) {
            return false;
        }
        memory_wr(m->seat, Y, 0, word(CONSTANT, which));
        memory_set(m->seat, X, (uint32_t)which, Y);
    }
    return true;
}

/* The constants of the hub, in X: whoever comes first makes them, and all take those that stand there. */
static bool share_constants(machine *m) {
    if (memory_get(m->seat, X, HUB, HUB_CONSTANTS)) {
        return true;
    }
    if (!make_constants(m)) {
        return false;
    }
    memory_cas(m->seat, HUB, HUB_CONSTANTS, NIL, X);
    return memory_get(m->seat, X, HUB, HUB_CONSTANTS);
}

bool attach_constants(machine *m) {
    static const char message[] = "out of memory";
    if (!share_constants(m) || !make_object(m, OWN, FIELDS, 0)) {
        return false;
    }
    for (uint32_t which = 0; which < CONSTANTS; which++) {
        memory_get(m->seat, Y, X, which);
        memory_set(m->seat, OWN, which, Y);
    }
    if (!make_fault(m, X, NIL) || !make_string(m, VAL, message, sizeof message - 1)) {
        return false;
    }
    memory_set(m->seat, X, FAULT_MESSAGE, VAL);
    memory_set(m->seat, OWN, OWN_FAULT, X);
    return true;
}
