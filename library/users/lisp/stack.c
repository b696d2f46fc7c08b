/* The stack: a chain of chunks in the heap. Slot 0 of a chunk leads to the one below. */
#include "lisp.h"

static bool add_chunk(machine *m) {
    if (!make_object(m, Z, FIELDS, FIELDS)) {
        return false;
    }
    memory_set(m->seat, Z, 0, STACK);
    memory_copy(m->seat, STACK, Z);
    m->top = 1;
    return true;
}

bool begin_stack(machine *m) {
    memory_drop(m->seat, STACK);
    m->depth = 0;
    return add_chunk(m);
}

bool push(machine *m, root value) {
    if (m->top == FIELDS && !add_chunk(m)) {
        return false;
    }
    memory_set(m->seat, STACK, m->top, value);
    m->top++;
    m->depth++;
    return true;
}

bool push_with(machine *m, root value, uint64_t number) {
    if (!push(m, value)) {
        return false;
    }
    memory_wr(m->seat, STACK, m->top - 1, number);
    return true;
}

/* The slot that is popped. A chunk without slots in use is left only now, so that a push may find it. */
static void to_last_slot(machine *m) {
    if (m->top == 1) {
        memory_get(m->seat, STACK, STACK, 0);
        m->top = FIELDS;
    }
    m->top--;
    m->depth--;
}

/* The slot is emptied by the same access: what is not on the stack any more is not kept alive by it. */
void pop(machine *m, root dst) {
    to_last_slot(m);
    memory_xchg(m->seat, dst, STACK, m->top, NIL);
}

uint64_t pop_with(machine *m, root dst) {
    uint64_t number = 0;
    to_last_slot(m);
    memory_rd(m->seat, STACK, m->top, &number);
    memory_xchg(m->seat, dst, STACK, m->top, NIL);
    return number;
}

void cut_stack(machine *m, uint64_t depth) {
    while (m->depth > depth) {
        to_last_slot(m);
        memory_set(m->seat, STACK, m->top, NIL);
    }
}
