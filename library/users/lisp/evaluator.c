/*
 * The evaluator. It evaluates one node at a time; where an operand needs the stack, the node and its environment are pushed
 * with its word and the number of the operand, and the machine goes on with the operand. So a call in the last place leaves
 * nothing on the stack. A call of a primitive whose arguments are leaves is made without it.
 */
#include "code.h"

/* What the machine does next. */
typedef enum next {
    EVALUATE, /* CODE, with its word in m->op, in ENV */
    RETURN,   /* VAL to whoever waits for it on the stack */
    FAILED,   /* VAL is an error */
    STOPPED   /* the run has its value */
} next;

/* A call that is being made. */
typedef struct call {
    root node;     /* CODE, or FRAME: a call of a primitive from the node in CODE */
    uint32_t arguments;
    uint32_t mask; /* operands that are not leaves: their values are on the stack, but for the last, which is in VAL */
    bool taken;    /* whether the one in VAL has been taken */
} call;

static next advance(machine *m, uint32_t index);

static next given(bool done) {
    return done ? RETURN : FAILED;
}

/* The error in VAL is told with the source of the node in a root, if it has no expression yet. Answers false. */
static bool blame(machine *m, root node, uint32_t operands) {
    if (!m->settled) {
        if (memory_get(m->seat, Z, node, operands)) {
            memory_set(m->seat, VAL, FAULT_CODE, Z);
        }
        m->settled = true;
    }
    return false;
}

/* ---- Leaves. They use X and Z. ---- */

static bool load_local(machine *m, root dst, uint64_t op) {
    root frame = ENV;
    for (uint32_t up = low_part(op); up > 0; up--) {
        memory_get(m->seat, Z, frame, 0);
        frame = Z;
    }
    return memory_get(m->seat, dst, frame, high_part(op)) ? true : fail(m, "a variable has no value yet", NIL);
}

static bool load_global(machine *m, root dst, root symbol) {
    return memory_get(m->seat, dst, symbol, SYMBOL_VALUE) ? true : fail(m, "no such variable", symbol);
}

/* A procedure of the lambda in a root, which is not dst. */
static bool make_closure(machine *m, root dst, root lambda) {
    uint64_t of = 0;
    uint64_t body = 0;
    if (!make_object(m, dst, 2, 2)) {
        return false;
    }
    memory_rd(m->seat, lambda, 0, &of);
    memory_rd(m->seat, lambda, 1, &body);
    memory_get(m->seat, Z, lambda, 0);
    memory_wr(m->seat, dst, 0, word(CLOSURE, (int64_t)of));
    memory_wr(m->seat, dst, CLOSURE_CODE, body);
    memory_set(m->seat, dst, CLOSURE_BODY, Z);
    return memory_set(m->seat, dst, CLOSURE_ENV, ENV);
}

static bool load_leaf(machine *m, root dst, uint64_t op, root reference) {
    switch (operation_of(op)) {
    case DO_LOCAL:
        return load_local(m, dst, op);
    case DO_GLOBAL:
        return load_global(m, dst, reference);
    case DO_LAMBDA:
        return make_closure(m, dst, reference);
    default:
        memory_copy(m->seat, dst, reference);
        return true;
    }
}

/* Operand `index` of the node in a root, whose word is op. */
static bool load_operand(machine *m, root dst, root node, uint32_t index, uint64_t op) {
    if (operation_of(op) == DO_LOCAL) {
        return load_local(m, dst, op);
    }
    if (operation_of(op) == DO_CONSTANT) {
        return memory_get(m->seat, dst, node, index);
    }
    memory_get(m->seat, X, node, index);
    return load_leaf(m, dst, op, X);
}

/* ---- Calls. ---- */

/* Operand `index` of a call, from the last to the first. It is in *where: VAL, or the spare root. */
static bool take_operand(machine *m, call *of, uint32_t index, root spare, root *where) {
    uint64_t op = 0;
    *where = spare;
    if ((of->mask >> index & 1) == 0) {
        memory_rd(m->seat, of->node, index, &op);
        return load_operand(m, spare, of->node, index, op);
    }
    if (of->taken) {
        pop(m, spare);
    } else {
        of->taken = true;
        *where = VAL;
    }
    return true;
}

/* The arguments from the last down to number `from`, as a list in A. Uses Y. */
static bool take_list(machine *m, call *of, uint32_t from) {
    root where = VAL;
    load_constant(m, A, IS_EMPTY);
    for (uint32_t i = of->arguments; i > from; i--) {
        if (!take_operand(m, of, i - 1, Y, &where) || !make_pair(m, A, where, A)) {
            return false;
        }
    }
    return true;
}

/* The arguments in A, B, C, D. */
static bool take_arguments(machine *m, call *of) {
    root where = VAL;
    for (uint32_t i = of->arguments; i > 0; i--) {
        root dst = (root)(A + i - 1);
        if (!take_operand(m, of, i - 1, dst, &where)) {
            return false;
        }
        if (where != dst) {
            memory_copy(m->seat, dst, where);
        }
    }
    return true;
}

/* A primitive of two arguments, of the elements of the list in A from the left. Uses C. */
static bool fold(machine *m, const primitive *of) {
    memory_copy(m->seat, C, A);
    if (!take_apart(m, C, VAL, C)) {
        return fail(m, "wrong number of arguments", FUN);
    }
    if (of->arguments == NEGATED && !is_pair(m, C)) {
        memory_copy(m->seat, B, VAL);
        return make_number(m, A, 0) && of->body(m);
    }
    while (take_apart(m, C, B, C)) {
        memory_copy(m->seat, A, VAL);
        if (!of->body(m)) {
            return false;
        }
    }
    return true;
}

static bool is_folded(const primitive *of) {
    return of->arguments == FOLDED || of->arguments == NEGATED;
}

/* Calls a primitive with the arguments of the node. */
static bool call_primitive(machine *m, call *of, const primitive *which) {
    if (which->arguments == AS_LIST) {
        return take_list(m, of, 0) && which->body(m);
    }
    if (is_folded(which) && of->arguments != 2) {
        return take_list(m, of, 0) && fold(m, which);
    }
    if (!is_folded(which) && (uint32_t)which->arguments != of->arguments) {
        return fail(m, "wrong number of arguments", FUN);
    }
    return take_arguments(m, of) && which->body(m);
}

static bool check_count(machine *m, int64_t of, uint32_t arguments) {
    uint32_t wanted = shape_parameters(of);
    bool right = arguments == wanted || (arguments > wanted && shape_takes_rest(of));
    return right ? true : fail(m, "wrong number of arguments", FUN);
}

/* A frame for the procedure in FUN, below its environment. */
static bool begin_frame(machine *m, int64_t of) {
    if (!make_object(m, FRAME, shape_variables(of) + 1, 0)) {
        return false;
    }
    memory_get(m->seat, Z, FUN, CLOSURE_ENV);
    return memory_set(m->seat, FRAME, 0, Z);
}

/* Goes on with the body of the procedure in FUN, in the frame. */
static next enter_body(machine *m) {
    memory_copy(m->seat, ENV, FRAME);
    memory_rd(m->seat, FUN, CLOSURE_CODE, &m->op);
    memory_get(m->seat, CODE, FUN, CLOSURE_BODY);
    return EVALUATE;
}

/* The arguments of the node in CODE, in a frame. */
static bool fill_frame(machine *m, call *of, int64_t shaped) {
    root where = VAL;
    uint32_t wanted = shape_parameters(shaped);
    if (!check_count(m, shaped, of->arguments) || !begin_frame(m, shaped)) {
        return false;
    }
    if (shape_takes_rest(shaped)) {
        if (!take_list(m, of, wanted)) {
            return false;
        }
        memory_set(m->seat, FRAME, wanted + 1, A);
    }
    for (uint32_t i = wanted; i > 0; i--) {
        if (!take_operand(m, of, i - 1, Y, &where)) {
            return false;
        }
        memory_set(m->seat, FRAME, i, where);
    }
    return true;
}

/* The elements of the list in B, in a frame. Uses Y. */
static bool spread_frame(machine *m, int64_t shaped, uint32_t count) {
    uint32_t wanted = shape_parameters(shaped);
    if (!check_count(m, shaped, count) || !begin_frame(m, shaped)) {
        return false;
    }
    for (uint32_t i = 1; i <= wanted; i++) {
        take_apart(m, B, Y, B);
        memory_set(m->seat, FRAME, i, Y);
    }
    if (shape_takes_rest(shaped)) {
        memory_set(m->seat, FRAME, wanted + 1, B);
    }
    return true;
}

/* The same for a primitive: its arguments are the elements of the list in B. Uses Y. */
static bool spread_primitive(machine *m, const primitive *which, uint32_t count) {
    memory_copy(m->seat, Y, B);
    if (which->arguments == AS_LIST || (is_folded(which) && count != 2)) {
        memory_copy(m->seat, A, Y);
        return is_folded(which) ? fold(m, which) : which->body(m);
    }
    if (!is_folded(which) && (which->arguments < 0 || (uint32_t)which->arguments != count)) {
        return fail(m, "wrong number of arguments", FUN);
    }
    for (uint32_t i = 0; i < count; i++) {
        take_apart(m, Y, (root)(A + i), Y);
    }
    return which->body(m);
}

/* How many elements the list in B has. Uses Y. False: it is none. */
static bool count_list(machine *m, uint32_t *count) {
    memory_copy(m->seat, Y, B);
    for (*count = 0; take_apart(m, Y, X, Y); ++*count) {
    }
    return is_constant(m, Y, IS_EMPTY) ? true : fail(m, "a list wanted", B);
}

/* The procedure in A, of the elements of the list in B. */
static next call_spread(machine *m) {
    uint32_t count = 0;
    memory_copy(m->seat, FUN, A);
    uint64_t of = word_of(m, FUN);
    if (!count_list(m, &count)) {
        return FAILED;
    }
    if (kind_of(of) == PRIMITIVE) {
        return given(spread_primitive(m, &primitives[rest_of(of)], count));
    }
    if (kind_of(of) != CLOSURE) {
        return given(fail(m, "not a procedure", FUN));
    }
    return spread_frame(m, rest_of(of), count) ? enter_body(m) : FAILED;
}

/* apply: a procedure and a list. */
static next call_apply(machine *m, call *of) {
    if (of->arguments != 2) {
        return given(fail(m, "wrong number of arguments", FUN));
    }
    return take_arguments(m, of) ? call_spread(m) : FAILED;
}

/* Calls what is in FUN, whose word it is. */
static next call_value(machine *m, call *of, uint64_t value) {
    if (kind_of(value) == PRIMITIVE) {
        const primitive *which = &primitives[rest_of(value)];
        return which->arguments == APPLIES ? call_apply(m, of) : given(call_primitive(m, of, which));
    }
    if (kind_of(value) != CLOSURE) {
        return given(fail(m, "not a procedure", FUN));
    }
    return fill_frame(m, of, rest_of(value)) ? enter_body(m) : FAILED;
}

static call call_of(root node, uint64_t op) {
    call made = {.node = node, .arguments = low_part(op) - 1, .mask = high_part(op), .taken = false};
    return made;
}

/* Makes the call in CODE, all of whose operands that are no leaves have been evaluated. */
static next make_call(machine *m) {
    root where = VAL;
    call of = call_of(CODE, m->op);
    if (!take_operand(m, &of, of.arguments, FUN, &where)) {
        return FAILED;
    }
    if (where != FUN) {
        memory_copy(m->seat, FUN, where);
    }
    return call_value(m, &of, word_of(m, FUN));
}

/* ---- Operands. ---- */

/* Leaves the node in CODE until operand `index` has its value. */
static bool suspend(machine *m, uint64_t index) {
    return push(m, CODE) && push_with(m, ENV, m->op | index << 32);
}

/* Goes on with operand `index` of the node in CODE, and never comes back to the node. */
static next enter(machine *m, uint32_t index) {
    memory_rd(m->seat, CODE, index, &m->op);
    memory_get(m->seat, CODE, CODE, index);
    return EVALUATE;
}

static bool store_local(machine *m, uint64_t op) {
    root frame = ENV;
    for (uint32_t up = low_part(op); up > 0; up--) {
        memory_get(m->seat, Z, frame, 0);
        frame = Z;
    }
    return memory_set(m->seat, frame, high_part(op), VAL);
}

/* VAL becomes the value of the symbol that the node in CODE leads to. */
static bool store_global(machine *m, operation how) {
    memory_get(m->seat, Y, CODE, 2);
    if (how == DO_DEFINE_ONCE) {
        memory_cas(m->seat, Y, SYMBOL_VALUE, NIL, VAL);
        return true;
    }
    if (how == DO_ASSIGN_GLOBAL && !memory_get(m->seat, X, Y, SYMBOL_VALUE)) {
        return fail(m, "no such variable", Y);
    }
    return memory_set(m->seat, Y, SYMBOL_VALUE, VAL);
}

static next stored(machine *m, bool done) {
    if (done) {
        load_constant(m, VAL, IS_UNSPECIFIED);
    }
    return given(done);
}

/* The next operand of a call that is no leaf, from `index` on; as many as there are operands where there is none. */
static uint32_t next_operand(uint64_t op, uint32_t index) {
    while (index < low_part(op) && (high_part(op) >> index & 1) == 0) {
        index++;
    }
    return index;
}

/* VAL is the value of operand `index` of the call in CODE. */
static next call_got(machine *m, uint32_t index) {
    if (next_operand(m->op, index + 1) < low_part(m->op) && !push(m, VAL)) {
        return FAILED;
    }
    return advance(m, index + 1);
}

static next let_got(machine *m, uint32_t index) {
    memory_set(m->seat, ENV, high_part(m->op) + index, VAL);
    return advance(m, index + 1);
}

/* VAL is the value of operand `index` of the node in CODE. */
static next got(machine *m, uint32_t index) {
    operation of = operation_of(m->op);
    switch (of) {
    case DO_IF:
        return enter(m, is_constant(m, VAL, IS_FALSE) ? 2 : 1);
    case DO_SEQUENCE:
        return enter(m, 1);
    case DO_AND:
        return is_constant(m, VAL, IS_FALSE) ? RETURN : enter(m, 1);
    case DO_OR:
        return is_constant(m, VAL, IS_FALSE) ? enter(m, 1) : RETURN;
    case DO_ASSIGN_LOCAL:
        return stored(m, store_local(m, m->op));
    case DO_ASSIGN_GLOBAL:
    case DO_DEFINE:
    case DO_DEFINE_ONCE:
        return stored(m, store_global(m, of));
    case DO_LET:
        return let_got(m, index);
    case DO_CALL:
        return call_got(m, index);
    default:
        return RETURN;
    }
}

/* Operand `index` of the node in CODE is a call whose operands are leaves: of a primitive, it is made here. */
static next quick_call(machine *m, uint32_t index, uint64_t op) {
    call of = call_of(FRAME, op);
    root where = FUN;
    memory_get(m->seat, FRAME, CODE, index);
    if (!take_operand(m, &of, of.arguments, FUN, &where)) {
        return given(blame(m, FRAME, of.arguments + 1));
    }
    uint64_t value = word_of(m, FUN);
    if (kind_of(value) == PRIMITIVE && primitives[rest_of(value)].arguments != APPLIES) {
        bool done = call_primitive(m, &of, &primitives[rest_of(value)]);
        return done ? got(m, index) : given(blame(m, FRAME, of.arguments + 1));
    }
    if (!suspend(m, index)) {
        return FAILED;
    }
    memory_copy(m->seat, CODE, FRAME);
    m->op = op;
    of.node = CODE;
    return call_value(m, &of, value);
}

/* Evaluates operand `index` of the node in CODE, at once where it can be. */
static next operand_value(machine *m, uint32_t index) {
    uint64_t op = 0;
    memory_rd(m->seat, CODE, index, &op);
    if (is_leaf(op)) {
        return load_operand(m, VAL, CODE, index, op) ? got(m, index) : FAILED;
    }
    if (operation_of(op) == DO_CALL && high_part(op) == 0) {
        return quick_call(m, index, op);
    }
    return suspend(m, index) ? enter(m, index) : FAILED;
}

/* The body of a try is evaluated below a mark on the stack, which says where the mark of the try around it is. */
static next begin_try(machine *m) {
    if (!suspend(m, m->handler)) {
        return FAILED;
    }
    m->handler = m->depth;
    return enter(m, 0);
}

/* Goes on with the node in CODE from operand `index`. */
static next advance(machine *m, uint32_t index) {
    uint32_t wanted = index;
    switch (operation_of(m->op)) {
    case DO_CALL:
        wanted = next_operand(m->op, index);
        return wanted == low_part(m->op) ? make_call(m) : operand_value(m, wanted);
    case DO_LET:
        return index + 1 == low_part(m->op) ? enter(m, index) : operand_value(m, index);
    case DO_TRY:
        return begin_try(m);
    default:
        return operand_value(m, index);
    }
}

/* ---- The run. ---- */

static next evaluate(machine *m) {
    if (m->every > 0 && ++m->ticks >= m->every) {
        m->ticks = 0;
        memory_gc(m->seat);
    }
    if (is_leaf(m->op)) {
        return given(load_leaf(m, VAL, m->op, CODE));
    }
    next then = advance(m, 0);
    if (then == FAILED) {
        blame(m, CODE, operand_count(m->op));
    }
    return then;
}

/* Back to the node that waits on top of the stack. */
static next resume(machine *m) {
    uint64_t state = pop_with(m, ENV);
    pop(m, CODE);
    m->op = state & UINT32_MAX;
    uint32_t index = (uint32_t)(state >> 32);
    if (operation_of(m->op) == DO_STOP) {
        return STOPPED;
    }
    if (operation_of(m->op) == DO_TRY) {
        m->handler = index;
        return RETURN;
    }
    next then = got(m, index);
    if (then == FAILED) {
        blame(m, CODE, operand_count(m->op));
    }
    return then;
}

/* The registers that hold what an evaluation was at are emptied, so that it is not kept alive. */
static void forget(machine *m) {
    for (root of = FUN; of <= Z; of = (root)(of + 1)) {
        memory_drop(m->seat, of);
    }
}

/* An error that was made beforehand is given as a copy, if there is room for one by now. */
static void renew_fault(machine *m) {
    if (!is_own_fault(m)) {
        return;
    }
    if (memory_new(m->seat, X, 3, 1) != MEMORY_MADE) {
        return;
    }
    memory_wr(m->seat, X, 0, word(FAULT, 0));
    for (uint32_t field = 0; field < 3; field++) {
        memory_get(m->seat, Y, VAL, field);
        memory_set(m->seat, X, field, Y);
    }
    memory_copy(m->seat, VAL, X);
}

/* Gives the error in VAL to the innermost try. False: there is none. */
static bool catch(machine *m) {
    if (m->handler == 0) {
        return false;
    }
    cut_stack(m, m->handler);
    forget(m);
    renew_fault(m);
    return true;
}

bool run(machine *m) {
    uint64_t bottom = m->depth;
    next then = EVALUATE;
    m->handler = 0;
    if (!push(m, CODE) || !push_with(m, ENV, code_word(DO_STOP, 0, 0))) {
        return false;
    }
    while (then != STOPPED) {
        if (then == EVALUATE) {
            then = evaluate(m);
        } else if (then == RETURN || catch(m)) {
            then = resume(m);
        } else {
            cut_stack(m, bottom);
            forget(m);
            return false;
        }
    }
    return true;
}
