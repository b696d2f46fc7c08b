/*
 * The compiler: values to code, with the place of each variable. It is called with a source in VAL and a scope in ENV, gives code in CODE and its
 * word, and uses all roots from A on.
 *
 * A node that is being made is on top of the stack, with its source already in it: what is compiled next is taken from there.
 */
#include "code.h"

#include <string.h>

/* A scope: the variables of one procedure. Number 0: how many slots it has. */
enum { SCOPE_PARENT = 0, SCOPE_BINDINGS = 1 };
/* A binding; number 0 is the slot. */
enum { BINDING_SYMBOL = 0, BINDING_NEXT = 1 };
enum { LAMBDA_BODY = 0, LAMBDA_SOURCE = 1, LAMBDA_SHAPE = 0, LAMBDA_CODE = 1 };

static bool compile(machine *m, uint64_t *made);
static bool compile_sequence(machine *m, uint64_t *made);

static bool wrong_form(machine *m) {
    return fail(m, "wrong form", VAL);
}

/* How many elements the list in a root has; -1 where it is no list. Uses X. */
static int list_length(machine *m, root list) {
    int count = 0;
    memory_copy(m->seat, X, list);
    while (is_pair(m, X)) {
        memory_get(m->seat, X, X, CDR);
        count++;
    }
    return is_constant(m, X, IS_EMPTY) ? count : -1;
}

/* VAL becomes its element `index`, or its tail from there. */
static void to_tail(machine *m, int index) {
    for (int i = 0; i < index; i++) {
        memory_get(m->seat, VAL, VAL, CDR);
    }
}

static void to_element(machine *m, int index) {
    to_tail(m, index);
    memory_get(m->seat, VAL, VAL, CAR);
}

/* ---- Nodes. ---- */

/* The node on top of the stack, in FRAME. */
static void peek_node(machine *m) {
    if (m->top > 1) {
        memory_get(m->seat, FRAME, STACK, m->top - 1);
    } else {
        memory_get(m->seat, FRAME, STACK, 0);
        memory_get(m->seat, FRAME, FRAME, FIELDS - 1);
    }
}

/* Begins a node of the source in VAL, with room for `more` references behind it. */
static bool begin_node(machine *m, uint32_t operands, uint32_t more) {
    if (!make_object(m, FRAME, operands + 1 + more, operands)) {
        return false;
    }
    memory_set(m->seat, FRAME, operands, VAL);
    return push(m, FRAME);
}

/* VAL becomes the source of the node that was begun. */
static void to_source(machine *m, uint32_t operands) {
    peek_node(m);
    memory_get(m->seat, VAL, FRAME, operands);
}

/* What was compiled becomes operand `index` of the node. */
static bool keep_operand(machine *m, uint32_t index, uint64_t op) {
    peek_node(m);
    memory_set(m->seat, FRAME, index, CODE);
    return memory_wr(m->seat, FRAME, index, op);
}

/* Compiles VAL as operand `index`; *op is its word. */
static bool operand(machine *m, uint32_t index, uint64_t *op) {
    return compile(m, op) && keep_operand(m, index, *op);
}

/* Compiles part `part` of the source as operand `index` of `operands`. */
static bool part_operand(machine *m, uint32_t operands, int part, uint32_t index) {
    uint64_t op = 0;
    to_source(m, operands);
    to_element(m, part);
    return operand(m, index, &op);
}

/* The same of the parts from `part` on, as a sequence. */
static bool rest_operand(machine *m, uint32_t operands, int part, uint32_t index) {
    uint64_t op = 0;
    to_source(m, operands);
    to_tail(m, part);
    return compile_sequence(m, &op) && keep_operand(m, index, op);
}

static bool unspecified_operand(machine *m, uint32_t index) {
    uint64_t op = 0;
    load_constant(m, VAL, IS_UNSPECIFIED);
    return operand(m, index, &op);
}

static bool end_node(machine *m, uint64_t op, uint64_t *made) {
    pop(m, CODE);
    *made = op;
    return true;
}

/* ---- Variables. ---- */

/* Looks for the symbol in VAL among the variables of the scope in X. Uses Y, Z. */
static bool find_in_scope(machine *m, uint32_t *slot) {
    uint64_t found = 0;
    bool some = memory_get(m->seat, Y, X, SCOPE_BINDINGS);
    for (; some; some = memory_get(m->seat, Y, Y, BINDING_NEXT)) {
        memory_get(m->seat, Z, Y, BINDING_SYMBOL);
        if (memory_same(m->seat, Z, VAL)) {
            memory_rd(m->seat, Y, 0, &found);
            *slot = (uint32_t)found;
            return true;
        }
    }
    return false;
}

static bool find_variable(machine *m, uint32_t *up, uint32_t *slot) {
    memory_copy(m->seat, X, ENV);
    for (*up = 0; !find_in_scope(m, slot); ++*up) {
        if (!memory_get(m->seat, X, X, SCOPE_PARENT)) {
            return false;
        }
    }
    return true;
}

/* The symbol in VAL becomes a variable of the scope. Uses FRAME, X, Y, Z. */
static bool add_variable(machine *m) {
    uint64_t count = 0;
    memory_rd(m->seat, ENV, 0, &count);
    if (kind_of(word_of(m, VAL)) != SYMBOL) {
        return fail(m, "a name wanted", VAL);
    }
    if (count == MOST_VARIABLES) {
        return fail(m, "more than 15 variables in a procedure", VAL);
    }
    if (!make_object(m, FRAME, 2, 1)) {
        return false;
    }
    memory_get(m->seat, X, ENV, SCOPE_BINDINGS);
    memory_set(m->seat, FRAME, BINDING_SYMBOL, VAL);
    memory_set(m->seat, FRAME, BINDING_NEXT, X);
    memory_wr(m->seat, FRAME, 0, count + 1);
    memory_set(m->seat, ENV, SCOPE_BINDINGS, FRAME);
    return memory_wr(m->seat, ENV, 0, count + 1);
}

/* A scope below that of ENV, or at the top where ENV is null. */
static bool begin_scope(machine *m) {
    if (!make_object(m, FRAME, 2, 1)) {
        return false;
    }
    memory_set(m->seat, FRAME, SCOPE_PARENT, ENV);
    memory_copy(m->seat, ENV, FRAME);
    return true;
}

static bool compile_variable(machine *m, uint64_t *made) {
    uint32_t up = 0;
    uint32_t slot = 0;
    if (find_variable(m, &up, &slot)) {
        if (up > 255) {
            return fail(m, "nested too deep", VAL);
        }
        memory_drop(m->seat, CODE);
        *made = code_word(DO_LOCAL, up, slot);
    } else {
        memory_copy(m->seat, CODE, VAL);
        *made = code_word(DO_GLOBAL, 0, 0);
    }
    return true;
}

/* ---- Sequences and bodies. ---- */

/* The list in VAL: one expression or more. */
static bool compile_sequence(machine *m, uint64_t *made) {
    int length = list_length(m, VAL);
    if (length < 1) {
        return wrong_form(m);
    }
    if (length == 1) {
        to_element(m, 0);
        return compile(m, made);
    }
    return begin_node(m, 2, 0) && part_operand(m, 2, 0, 0) && rest_operand(m, 2, 1, 1) && end_node(m, code_word(DO_SEQUENCE, 0, 0), made);
}

/* What the form in B defines, in VAL: the name, which may stand before parameters. */
static void to_defined_name(machine *m) {
    memory_copy(m->seat, VAL, B);
    to_element(m, 1);
    while (is_pair(m, VAL)) {
        memory_get(m->seat, VAL, VAL, CAR);
    }
}

/* Whether the value in B is a definition. Uses X. */
static bool is_definition(machine *m);

/* Makes variables of what the definitions in the body in VAL define. Uses A, B and those of add_variable. */
static bool add_definitions(machine *m) {
    if (!push(m, VAL)) {
        return false;
    }
    memory_copy(m->seat, A, VAL);
    while (take_apart(m, A, B, A)) {
        if (is_definition(m)) {
            to_defined_name(m);
            if (!add_variable(m)) {
                return false;
            }
        }
    }
    pop(m, VAL);
    return true;
}

static bool compile_body(machine *m, uint64_t *made) {
    return add_definitions(m) && compile_sequence(m, made);
}

/* ---- Procedures. ---- */

/* Makes variables of the parameters in A: those that must be given, and whether one more takes the rest. */
static bool add_parameters(machine *m, uint32_t *parameters, bool *takes_rest) {
    *parameters = 0;
    while (take_apart(m, A, VAL, A)) {
        if (!add_variable(m)) {
            return false;
        }
        ++*parameters;
    }
    *takes_rest = !is_constant(m, A, IS_EMPTY);
    memory_copy(m->seat, VAL, A);
    return !*takes_rest || add_variable(m);
}

/* The parameters in A and the body on top of the stack, in a scope that was begun. */
static bool compile_scope(machine *m, int64_t *of, uint64_t *body) {
    uint32_t parameters = 0;
    uint64_t variables = 0;
    bool takes_rest = false;
    if (!add_parameters(m, &parameters, &takes_rest)) {
        return false;
    }
    pop(m, VAL);
    if (!compile_body(m, body)) {
        return false;
    }
    memory_rd(m->seat, ENV, 0, &variables);
    *of = shape(parameters, takes_rest, (uint32_t)variables);
    return true;
}

/* A procedure of the parameters in A and the body in B; its source is in VAL. */
static bool compile_procedure(machine *m, uint64_t *made) {
    int64_t of = 0;
    uint64_t body = 0;
    if (!make_object(m, FRAME, 2, 2)) {
        return false;
    }
    memory_set(m->seat, FRAME, LAMBDA_SOURCE, VAL);
    if (!push(m, FRAME) || !push(m, ENV) || !push(m, B) || !begin_scope(m) || !compile_scope(m, &of, &body)) {
        return false;
    }
    pop(m, ENV);
    pop(m, FRAME);
    memory_set(m->seat, FRAME, LAMBDA_BODY, CODE);
    memory_wr(m->seat, FRAME, LAMBDA_SHAPE, (uint64_t)of);
    memory_wr(m->seat, FRAME, LAMBDA_CODE, body);
    memory_copy(m->seat, CODE, FRAME);
    *made = code_word(DO_LAMBDA, 0, 0);
    return true;
}

/* (lambda parameters body ..) */
static bool compile_lambda(machine *m, uint64_t *made) {
    if (list_length(m, VAL) < 3) {
        return wrong_form(m);
    }
    memory_get(m->seat, B, VAL, CDR);
    take_apart(m, B, A, B);
    return compile_procedure(m, made);
}

/* ---- Definitions and assignments. ---- */

/* The value of the definition that is the source of the node: of (define name value) or of (define (name . parameters) body ..). */
static bool definition_operand(machine *m) {
    uint64_t op = 0;
    to_source(m, 1);
    memory_get(m->seat, B, VAL, CDR);
    take_apart(m, B, A, B);
    if (is_pair(m, A)) {
        memory_get(m->seat, A, A, CDR);
        return compile_procedure(m, &op) && keep_operand(m, 0, op);
    }
    memory_get(m->seat, VAL, B, CAR);
    return operand(m, 0, &op);
}

/* The node leads to the symbol that it defines or assigns, and says where a variable of that name is. */
static bool end_store(machine *m, operation global, bool here, uint64_t *made) {
    uint32_t up = 0;
    uint32_t slot = 0;
    to_source(m, 1);
    memory_copy(m->seat, B, VAL);
    to_defined_name(m);
    bool found = find_variable(m, &up, &slot);
    if (found && (!here || up == 0)) {
        return end_node(m, code_word(DO_ASSIGN_LOCAL, up, slot), made);
    }
    if (here && memory_get(m->seat, X, ENV, SCOPE_PARENT)) {
        return fail(m, "a definition stands in the wrong place", VAL);
    }
    peek_node(m);
    memory_set(m->seat, FRAME, 2, VAL);
    return end_node(m, code_word(global, 0, 0), made);
}

/* A definition has a name, and one value or a body. */
static bool check_definition(machine *m) {
    int length = list_length(m, VAL);
    if (length < 3) {
        return wrong_form(m);
    }
    memory_get(m->seat, X, VAL, CDR);
    memory_get(m->seat, X, X, CAR);
    bool procedure = is_pair(m, X);
    if (procedure) {
        memory_get(m->seat, X, X, CAR);
    }
    return kind_of(word_of(m, X)) == SYMBOL && (procedure || length == 3) ? true : wrong_form(m);
}

static bool compile_define(machine *m, uint64_t *made) {
    return check_definition(m) && begin_node(m, 1, 1) && definition_operand(m) && end_store(m, DO_DEFINE, true, made);
}

static bool compile_define_once(machine *m, uint64_t *made) {
    return check_definition(m) && begin_node(m, 1, 1) && definition_operand(m) && end_store(m, DO_DEFINE_ONCE, true, made);
}

/* (set! name value) */
static bool compile_set(machine *m, uint64_t *made) {
    memory_get(m->seat, X, VAL, CDR);
    if (!take_apart(m, X, X, Y) || kind_of(word_of(m, X)) != SYMBOL || list_length(m, VAL) != 3) {
        return wrong_form(m);
    }
    return begin_node(m, 1, 1) && part_operand(m, 1, 2, 0) && end_store(m, DO_ASSIGN_GLOBAL, false, made);
}

/* ---- Choices. ---- */

/* (quote value) */
static bool compile_quote(machine *m, uint64_t *made) {
    if (list_length(m, VAL) != 2) {
        return wrong_form(m);
    }
    to_element(m, 1);
    memory_copy(m->seat, CODE, VAL);
    *made = code_word(DO_CONSTANT, 0, 0);
    return true;
}

/* (if test then), (if test then else) */
static bool compile_if(machine *m, uint64_t *made) {
    int length = list_length(m, VAL);
    if (length != 3 && length != 4) {
        return wrong_form(m);
    }
    return begin_node(m, 3, 0) && part_operand(m, 3, 1, 0) && part_operand(m, 3, 2, 1) &&
           (length == 4 ? part_operand(m, 3, 3, 2) : unspecified_operand(m, 2)) && end_node(m, code_word(DO_IF, 0, 0), made);
}

/* (when test body ..) */
static bool compile_when(machine *m, uint64_t *made) {
    if (list_length(m, VAL) < 3) {
        return wrong_form(m);
    }
    return begin_node(m, 3, 0) && part_operand(m, 3, 1, 0) && rest_operand(m, 3, 2, 1) && unspecified_operand(m, 2) &&
           end_node(m, code_word(DO_IF, 0, 0), made);
}

/* (unless test body ..) */
static bool compile_unless(machine *m, uint64_t *made) {
    if (list_length(m, VAL) < 3) {
        return wrong_form(m);
    }
    return begin_node(m, 3, 0) && part_operand(m, 3, 1, 0) && unspecified_operand(m, 1) && rest_operand(m, 3, 2, 2) &&
           end_node(m, code_word(DO_IF, 0, 0), made);
}

/* The list of expressions in VAL, each of which is wanted only where the one before it says so. */
static bool compile_chain(machine *m, operation of, constant without, uint64_t *made) {
    uint64_t op = 0;
    int length = list_length(m, VAL);
    if (length < 0) {
        return wrong_form(m);
    }
    if (length == 0) {
        load_constant(m, VAL, without);
        return compile(m, made);
    }
    if (length == 1) {
        to_element(m, 0);
        return compile(m, made);
    }
    if (!begin_node(m, 2, 0) || !part_operand(m, 2, 0, 0)) {
        return false;
    }
    to_source(m, 2);
    to_tail(m, 1);
    return compile_chain(m, of, without, &op) && keep_operand(m, 1, op) && end_node(m, code_word(of, 0, 0), made);
}

static bool compile_and(machine *m, uint64_t *made) {
    to_tail(m, 1);
    return compile_chain(m, DO_AND, IS_TRUE, made);
}

static bool compile_or(machine *m, uint64_t *made) {
    to_tail(m, 1);
    return compile_chain(m, DO_OR, IS_FALSE, made);
}

/* (begin expression ..) */
static bool compile_begin(machine *m, uint64_t *made) {
    to_tail(m, 1);
    return compile_sequence(m, made);
}

/* (try expression): its value, or the error that ended it. */
static bool compile_try(machine *m, uint64_t *made) {
    if (list_length(m, VAL) != 2) {
        return wrong_form(m);
    }
    return begin_node(m, 1, 0) && part_operand(m, 1, 1, 0) && end_node(m, code_word(DO_TRY, 0, 0), made);
}

static bool compile_clauses(machine *m, uint64_t *made);

/* The clauses behind the first of those that are the source of the node. */
static bool other_clauses(machine *m, uint32_t operands, uint32_t index) {
    uint64_t op = 0;
    to_source(m, operands);
    to_tail(m, 1);
    return compile_clauses(m, &op) && keep_operand(m, index, op);
}

/* The first clause of the source: its test, or what follows the test, as an operand. */
static bool clause_test(machine *m, uint32_t operands) {
    uint64_t op = 0;
    to_source(m, operands);
    to_element(m, 0);
    to_element(m, 0);
    return operand(m, 0, &op);
}

static bool clause_body(machine *m) {
    uint64_t op = 0;
    to_source(m, 3);
    to_element(m, 0);
    to_tail(m, 1);
    return compile_sequence(m, &op) && keep_operand(m, 1, op);
}

static bool is_else(machine *m);

/* The clauses of a cond in VAL. */
static bool compile_clauses(machine *m, uint64_t *made) {
    if (is_constant(m, VAL, IS_EMPTY)) {
        load_constant(m, VAL, IS_UNSPECIFIED);
        return compile(m, made);
    }
    memory_get(m->seat, B, VAL, CAR);
    int length = list_length(m, B);
    if (length < 1) {
        return wrong_form(m);
    }
    if (is_else(m)) {
        to_element(m, 0);
        to_tail(m, 1);
        return compile_sequence(m, made);
    }
    if (length == 1) {
        return begin_node(m, 2, 0) && clause_test(m, 2) && other_clauses(m, 2, 1) && end_node(m, code_word(DO_OR, 0, 0), made);
    }
    return begin_node(m, 3, 0) && clause_test(m, 3) && clause_body(m) && other_clauses(m, 3, 2) &&
           end_node(m, code_word(DO_IF, 0, 0), made);
}

static bool compile_cond(machine *m, uint64_t *made) {
    if (list_length(m, VAL) < 1) {
        return wrong_form(m);
    }
    to_tail(m, 1);
    return compile_clauses(m, made);
}

/* ---- Local variables. They take slots of the procedure that they stand in, since code of a frame runs once. ---- */

/* Whether the bindings in VAL are a list of lists of a name and an expression, and how many. Uses A, B, X. */
static bool check_bindings(machine *m, uint32_t *count) {
    int length = list_length(m, VAL);
    memory_copy(m->seat, A, VAL);
    while (take_apart(m, A, B, A)) {
        if (list_length(m, B) != 2) {
            return wrong_form(m);
        }
    }
    *count = (uint32_t)length;
    if (length > MOST_OPERANDS - 1) {
        return fail(m, "more than 14 variables in a let", VAL);
    }
    return length >= 0 ? true : wrong_form(m);
}

/* VAL becomes part `part` of binding `index` of the let that is being compiled. */
static void to_binding(machine *m, uint32_t count, uint32_t index, int part) {
    to_source(m, count + 1);
    to_element(m, 1);
    to_element(m, (int)index);
    to_element(m, part);
}

static bool add_bindings(machine *m, uint32_t count) {
    for (uint32_t i = 0; i < count; i++) {
        to_binding(m, count, i, 0);
        if (!add_variable(m)) {
            return false;
        }
    }
    return true;
}

static bool compile_values(machine *m, uint32_t count) {
    uint64_t op = 0;
    for (uint32_t i = 0; i < count; i++) {
        to_binding(m, count, i, 1);
        if (!operand(m, i, &op)) {
            return false;
        }
    }
    return true;
}

/* The body of the let, and its end. The slots of its variables follow `first`. */
static bool compile_let_body(machine *m, uint32_t count, uint64_t *made) {
    uint64_t op = 0;
    uint64_t slots = 0;
    memory_rd(m->seat, ENV, 0, &slots);
    uint32_t first = (uint32_t)slots - count + 1;
    to_source(m, count + 1);
    to_tail(m, 2);
    return compile_body(m, &op) && keep_operand(m, count, op) && end_node(m, code_word(DO_LET, count + 1, first), made);
}

/* Recursive ones see their own values, whose own variables take slots behind them. */
static bool compile_letrec_parts(machine *m, uint32_t count, uint64_t *made) {
    uint64_t before = 0;
    uint64_t op = 0;
    memory_rd(m->seat, ENV, 0, &before);
    if (!add_bindings(m, count) || !compile_values(m, count)) {
        return false;
    }
    to_source(m, count + 1);
    to_tail(m, 2);
    return compile_body(m, &op) && keep_operand(m, count, op) &&
           end_node(m, code_word(DO_LET, count + 1, (uint32_t)before + 1), made);
}

/* The variables of the source in VAL are seen in its own body, or from their values on. */
static bool compile_bindings(machine *m, bool recursive, uint64_t *made) {
    uint32_t count = 0;
    memory_get(m->seat, C, ENV, SCOPE_BINDINGS);
    if (list_length(m, VAL) < 3) {
        return wrong_form(m);
    }
    if (!push(m, C) || !push(m, VAL)) {
        return false;
    }
    to_element(m, 1);
    if (!check_bindings(m, &count)) {
        return false;
    }
    pop(m, VAL);
    if (!begin_node(m, count + 1, 0)) {
        return false;
    }
    bool done = recursive ? compile_letrec_parts(m, count, made)
                          : compile_values(m, count) && add_bindings(m, count) && compile_let_body(m, count, made);
    if (done) {
        pop(m, X);
        memory_set(m->seat, ENV, SCOPE_BINDINGS, X);
    }
    return done;
}

/* The list of part `part` of each binding of the list in A, in B. Uses D, X, Z. */
static bool collect_parts(machine *m, int part) {
    load_constant(m, B, IS_EMPTY);
    load_constant(m, D, IS_EMPTY);
    while (take_apart(m, A, X, A)) {
        for (int i = 0; i < part; i++) {
            memory_get(m->seat, X, X, CDR);
        }
        memory_get(m->seat, X, X, CAR);
        if (!make_pair(m, D, X, D)) {
            return false;
        }
    }
    while (take_apart(m, D, X, D)) {
        if (!make_pair(m, B, X, B)) {
            return false;
        }
    }
    return true;
}

/* Before the list in VAL stands the symbol of a name. Uses D, X, Y, Z. */
static bool put_symbol_before(machine *m, const char *name) {
    return intern(m, D, name, strlen(name)) && make_pair(m, VAL, D, VAL);
}

/* VAL alone in a list. Uses D, Z. */
static bool put_in_list(machine *m) {
    load_constant(m, D, IS_EMPTY);
    return make_pair(m, VAL, VAL, D);
}

/* (letrec ((name (lambda names . body))) name) of the name in C, the names in B, and the body in VAL. */
static bool make_loop(machine *m) {
    if (!make_pair(m, VAL, B, VAL) || !put_symbol_before(m, "lambda") || !put_in_list(m) || !make_pair(m, VAL, C, VAL) || !put_in_list(m)) {
        return false;
    }
    load_constant(m, D, IS_EMPTY);
    return make_pair(m, B, C, D) && make_pair(m, VAL, VAL, B) && put_symbol_before(m, "letrec");
}

/* (let name ((variable value) ..) body ..): the loop before its values. */
static bool compile_named_let(machine *m, uint64_t *made) {
    uint32_t count = 0;
    if (list_length(m, VAL) < 4) {
        return wrong_form(m);
    }
    if (!push(m, VAL)) {
        return false;
    }
    to_element(m, 2);
    if (!check_bindings(m, &count)) {
        return false;
    }
    memory_copy(m->seat, A, VAL);
    pop(m, VAL);
    memory_copy(m->seat, C, VAL);
    if (!push(m, A) || !collect_parts(m, 0)) {
        return false;
    }
    memory_get(m->seat, C, C, CDR);
    memory_get(m->seat, C, C, CAR);
    to_tail(m, 3);
    if (!make_loop(m)) {
        return false;
    }
    pop(m, A);
    return collect_parts(m, 1) && make_pair(m, VAL, VAL, B) && compile(m, made);
}

/* (let ((name value) ..) body ..), or with a name */
static bool compile_let(machine *m, uint64_t *made) {
    if (list_length(m, VAL) < 3) {
        return wrong_form(m);
    }
    memory_get(m->seat, X, VAL, CDR);
    memory_get(m->seat, X, X, CAR);
    bool named = kind_of(word_of(m, X)) == SYMBOL;
    return named ? compile_named_let(m, made) : compile_bindings(m, false, made);
}

static bool compile_letrec(machine *m, uint64_t *made) {
    return compile_bindings(m, true, made);
}

/* (let* (first rest ..) body ..) as (let (first) (let* (rest ..) body ..)), and with one binding or none as let. */
static bool compile_let_star(machine *m, uint64_t *made) {
    if (list_length(m, VAL) < 3) {
        return wrong_form(m);
    }
    memory_get(m->seat, B, VAL, CDR);
    take_apart(m, B, A, B);
    if (list_length(m, A) < 2) {
        return compile_bindings(m, false, made);
    }
    take_apart(m, A, C, A);
    memory_copy(m->seat, VAL, B);
    if (!make_pair(m, VAL, A, VAL) || !put_symbol_before(m, "let*") || !put_in_list(m)) {
        return false;
    }
    memory_copy(m->seat, B, VAL);
    memory_copy(m->seat, VAL, C);
    return put_in_list(m) && make_pair(m, VAL, VAL, B) && put_symbol_before(m, "let") && compile(m, made);
}

static bool compile_else(machine *m, uint64_t *made) {
    (void)made;
    return wrong_form(m);
}

/* ---- Forms and calls. ---- */

typedef struct form {
    const char *name;
    bool (*compile)(machine *m, uint64_t *made);
} form;

/* A symbol of a special form has its place in this table, from 1, behind its kind. */
static const form forms[] = {
    {"quote", compile_quote},
    {"if", compile_if},
    {"define", compile_define},
    {"define-once", compile_define_once},
    {"set!", compile_set},
    {"lambda", compile_lambda},
    {"begin", compile_begin},
    {"let", compile_let},
    {"let*", compile_let_star},
    {"letrec", compile_letrec},
    {"cond", compile_cond},
    {"else", compile_else},
    {"and", compile_and},
    {"or", compile_or},
    {"when", compile_when},
    {"unless", compile_unless},
    {"try", compile_try},
};

enum { FORMS = sizeof forms / sizeof forms[0] };

bool name_forms(machine *m) {
    for (int i = 0; i < FORMS; i++) {
        if (!intern(m, A, forms[i].name, strlen(forms[i].name))) {
            return false;
        }
        memory_wr(m->seat, A, 0, word(SYMBOL, i + 1));
    }
    return true;
}

/* The form that the list in a root begins with, or NULL. Uses X. */
static const form *form_of(machine *m, root list) {
    if (!is_pair(m, list)) {
        return NULL;
    }
    memory_get(m->seat, X, list, CAR);
    uint64_t of = word_of(m, X);
    return kind_of(of) == SYMBOL && rest_of(of) > 0 ? &forms[rest_of(of) - 1] : NULL;
}

static bool is_definition(machine *m) {
    const form *of = form_of(m, B);
    bool defines = of != NULL && (of->compile == compile_define || of->compile == compile_define_once);
    return defines && list_length(m, B) > 2;
}

static bool is_else(machine *m) {
    const form *of = form_of(m, B);
    return of != NULL && of->compile == compile_else;
}

/* (procedure argument ..): the procedure is the last operand. */
static bool compile_call(machine *m, uint64_t *made) {
    uint64_t op = 0;
    uint32_t mask = 0;
    int length = list_length(m, VAL);
    if (length < 1) {
        return wrong_form(m);
    }
    if (length > MOST_OPERANDS) {
        return fail(m, "more than 14 arguments", VAL);
    }
    uint32_t count = (uint32_t)length;
    if (!begin_node(m, count, 0)) {
        return false;
    }
    for (uint32_t i = 0; i < count; i++) {
        to_source(m, count);
        to_element(m, i == count - 1 ? 0 : (int)i + 1);
        if (!operand(m, i, &op)) {
            return false;
        }
        mask |= (uint32_t)!is_leaf(op) << i;
    }
    return end_node(m, code_word(DO_CALL, count, mask), made);
}

static bool compile_here(machine *m, uint64_t *made) {
    uint64_t of = word_of(m, VAL);
    if (kind_of(of) == SYMBOL) {
        return compile_variable(m, made);
    }
    if (kind_of(of) == PAIR) {
        const form *special = form_of(m, VAL);
        return special != NULL ? special->compile(m, made) : compile_call(m, made);
    }
    memory_copy(m->seat, CODE, VAL);
    *made = code_word(DO_CONSTANT, 0, 0);
    return true;
}

static bool compile(machine *m, uint64_t *made) {
    if (m->nesting >= MOST_NESTING) {
        return fail(m, "nested too deep", NIL);
    }
    m->nesting++;
    bool done = compile_here(m, made);
    m->nesting--;
    return done;
}

bool compile_top(machine *m) {
    memory_drop(m->seat, ENV);
    return begin_scope(m) && compile(m, &m->op);
}

uint32_t top_variables(machine *m) {
    uint64_t count = 0;
    memory_rd(m->seat, ENV, 0, &count);
    return (uint32_t)count;
}
