/* The primitives: each takes its arguments from A, B, C, D, gives VAL, and uses X, Y, Z. */
#include "lisp.h"

#include <sched.h>
#include <string.h>

static bool give_constant(machine *m, constant which) {
    load_constant(m, VAL, which);
    return true;
}

static bool give_truth(machine *m, bool whether) {
    return give_constant(m, whether ? IS_TRUE : IS_FALSE);
}

static bool give_unspecified(machine *m) {
    return give_constant(m, IS_UNSPECIFIED);
}

static bool give(machine *m, root value) {
    memory_copy(m->seat, VAL, value);
    return true;
}

/* ---- Arguments of a kind. ---- */

static bool want(machine *m, root value, kind of, uint64_t *told, const char *otherwise) {
    *told = word_of(m, value);
    return kind_of(*told) == of ? true : fail(m, otherwise, value);
}

static bool want_number(machine *m, root value, int64_t *number) {
    uint64_t told = 0;
    bool is = want(m, value, NUMBER, &told, "a number wanted");
    *number = rest_of(told);
    return is;
}

static bool want_numbers(machine *m, int64_t *a, int64_t *b) {
    return want_number(m, A, a) && want_number(m, B, b);
}

static bool want_pair(machine *m, root value) {
    uint64_t told = 0;
    return want(m, value, PAIR, &told, "a pair wanted");
}

static bool want_string(machine *m, root value, uint64_t *length) {
    uint64_t told = 0;
    bool is = want(m, value, STRING, &told, "a string wanted");
    *length = (uint64_t)rest_of(told);
    return is;
}

static bool want_symbol(machine *m, root value) {
    uint64_t told = 0;
    return want(m, value, SYMBOL, &told, "a symbol wanted");
}

static bool give_kind(machine *m, kind of) {
    return give_truth(m, kind_of(word_of(m, A)) == of);
}

/* ---- Numbers. ---- */

static bool add(machine *m) {
    int64_t a = 0;
    int64_t b = 0;
    return want_numbers(m, &a, &b) && make_number(m, VAL, a + b);
}

static bool subtract(machine *m) {
    int64_t a = 0;
    int64_t b = 0;
    return want_numbers(m, &a, &b) && make_number(m, VAL, a - b);
}

static bool multiply(machine *m) {
    int64_t a = 0;
    int64_t b = 0;
    int64_t product = 0;
    if (!want_numbers(m, &a, &b)) {
        return false;
    }
    if (__builtin_mul_overflow(a, b, &product)) {
        return fail(m, "number too large", NIL);
    }
    return make_number(m, VAL, product);
}

static bool want_divisor(machine *m, int64_t *a, int64_t *b) {
    if (!want_numbers(m, a, b)) {
        return false;
    }
    return *b != 0 ? true : fail(m, "division by zero", A);
}

static bool quotient(machine *m) {
    int64_t a = 0;
    int64_t b = 0;
    return want_divisor(m, &a, &b) && make_number(m, VAL, a / b);
}

static bool remainder_of(machine *m) {
    int64_t a = 0;
    int64_t b = 0;
    return want_divisor(m, &a, &b) && make_number(m, VAL, a % b);
}

static bool is_equal_number(machine *m) {
    int64_t a = 0;
    int64_t b = 0;
    return want_numbers(m, &a, &b) && give_truth(m, a == b);
}

static bool is_less(machine *m) {
    int64_t a = 0;
    int64_t b = 0;
    return want_numbers(m, &a, &b) && give_truth(m, a < b);
}

static bool is_greater(machine *m) {
    int64_t a = 0;
    int64_t b = 0;
    return want_numbers(m, &a, &b) && give_truth(m, a > b);
}

static bool is_at_most(machine *m) {
    int64_t a = 0;
    int64_t b = 0;
    return want_numbers(m, &a, &b) && give_truth(m, a <= b);
}

static bool is_at_least(machine *m) {
    int64_t a = 0;
    int64_t b = 0;
    return want_numbers(m, &a, &b) && give_truth(m, a >= b);
}

/* ---- Pairs and lists. ---- */

static bool cons(machine *m) {
    return make_pair(m, VAL, A, B);
}

static bool car(machine *m) {
    return want_pair(m, A) && memory_get(m->seat, VAL, A, CAR);
}

static bool cdr(machine *m) {
    return want_pair(m, A) && memory_get(m->seat, VAL, A, CDR);
}

static bool set_car(machine *m) {
    return want_pair(m, A) && memory_set(m->seat, A, CAR, B) && give_unspecified(m);
}

static bool set_cdr(machine *m) {
    return want_pair(m, A) && memory_set(m->seat, A, CDR, B) && give_unspecified(m);
}

static bool list(machine *m) {
    return give(m, A);
}

/* Whether the list in X, which was gone through, came to its end. */
static bool want_end(machine *m) {
    return is_constant(m, X, IS_EMPTY) ? true : fail(m, "a list wanted", A);
}

static bool length(machine *m) {
    int64_t count = 0;
    memory_copy(m->seat, X, A);
    while (take_apart(m, X, Y, X)) {
        count++;
    }
    return want_end(m) && make_number(m, VAL, count);
}

static bool reverse(machine *m) {
    memory_copy(m->seat, X, A);
    load_constant(m, VAL, IS_EMPTY);
    while (take_apart(m, X, Y, X)) {
        if (!make_pair(m, VAL, Y, VAL)) {
            return false;
        }
    }
    return want_end(m);
}

/* A copy of the list in A before B, from its first pair on: VAL is that one, and A the last one made. */
static bool append(machine *m) {
    memory_copy(m->seat, X, A);
    if (!take_apart(m, X, Y, X)) {
        return want_end(m) && give(m, B);
    }
    if (!make_pair(m, VAL, Y, B)) {
        return false;
    }
    memory_copy(m->seat, A, VAL);
    while (take_apart(m, X, Y, X)) {
        if (!make_pair(m, Y, Y, B)) {
            return false;
        }
        memory_set(m->seat, A, CDR, Y);
        memory_copy(m->seat, A, Y);
    }
    return want_end(m);
}

/* ---- What is it, and is it the same? ---- */

static bool not(machine *m) {
    return give_truth(m, is_constant(m, A, IS_FALSE));
}

static bool is_null(machine *m) {
    return give_truth(m, is_constant(m, A, IS_EMPTY));
}

static bool is_a_pair(machine *m) {
    return give_kind(m, PAIR);
}

static bool is_a_number(machine *m) {
    return give_kind(m, NUMBER);
}

static bool is_a_string(machine *m) {
    return give_kind(m, STRING);
}

static bool is_a_symbol(machine *m) {
    return give_kind(m, SYMBOL);
}

static bool is_a_vector(machine *m) {
    return give_kind(m, VECTOR);
}

static bool is_an_error(machine *m) {
    return give_kind(m, FAULT);
}

static bool is_a_procedure(machine *m) {
    kind of = kind_of(word_of(m, A));
    return give_truth(m, of == CLOSURE || of == PRIMITIVE);
}

static bool is_same(machine *m) {
    return give_truth(m, memory_same(m->seat, A, B));
}

/* The order of the strings in A and B: below, equal or above 0. */
static int compare_strings(machine *m) {
    memory_copy(m->seat, X, A);
    memory_copy(m->seat, Y, B);
    cursor a = begin_cursor(m, X);
    cursor b = begin_cursor(m, Y);
    int first = next_byte(m, &a);
    int second = next_byte(m, &b);
    while (first == second && first >= 0) {
        first = next_byte(m, &a);
        second = next_byte(m, &b);
    }
    return first - second;
}

/* Whether A and B are alike, but for what pairs lead to, which is put on the stack; *alike says so. False: no room. */
static bool compare_heads(machine *m, bool *alike) {
    uint64_t a = word_of(m, A);
    uint64_t b = word_of(m, B);
    *alike = memory_same(m->seat, A, B);
    if (*alike || a != b) {
        return true;
    }
    if (kind_of(a) != PAIR) {
        *alike = kind_of(a) == NUMBER || (kind_of(a) == STRING && compare_strings(m) == 0);
        return true;
    }
    *alike = true;
    memory_get(m->seat, X, A, CDR);
    memory_get(m->seat, Y, B, CDR);
    if (!push(m, X) || !push(m, Y)) {
        return false;
    }
    memory_get(m->seat, X, A, CAR);
    memory_get(m->seat, Y, B, CAR);
    return push(m, X) && push(m, Y);
}

static bool is_equal(machine *m) {
    uint64_t bottom = m->depth;
    bool alike = true;
    bool room = push(m, A) && push(m, B);
    while (room && alike && m->depth > bottom) {
        pop(m, B);
        pop(m, A);
        room = compare_heads(m, &alike);
    }
    cut_stack(m, bottom);
    return room && give_truth(m, alike);
}

/* ---- Strings. ---- */

static bool string_length(machine *m) {
    uint64_t bytes = 0;
    return want_string(m, A, &bytes) && make_number(m, VAL, (int64_t)bytes);
}

static bool string_append(machine *m) {
    uint64_t a = 0;
    uint64_t b = 0;
    if (!want_string(m, A, &a) || !want_string(m, B, &b) || !make_blank(m, VAL, a + b)) {
        return false;
    }
    memory_copy(m->seat, X, VAL);
    cursor to = begin_cursor(m, X);
    cursor from = begin_cursor(m, A);
    copy_bytes(m, &to, &from, a);
    from = begin_cursor(m, B);
    copy_bytes(m, &to, &from, b);
    return true;
}

/* Passes over bytes, a chunk at a time. */
static void skip_bytes(machine *m, cursor *at, uint64_t count) {
    while (count >= CHUNK_BYTES && at->left > CHUNK_BYTES) {
        memory_get(m->seat, at->chunk, at->chunk, 0);
        at->left -= CHUNK_BYTES;
        count -= CHUNK_BYTES;
    }
    for (; count > 0; count--) {
        (void)next_byte(m, at);
    }
}

static bool substring(machine *m) {
    uint64_t bytes = 0;
    int64_t from = 0;
    int64_t to = 0;
    if (!want_string(m, A, &bytes) || !want_number(m, B, &from) || !want_number(m, C, &to)) {
        return false;
    }
    if (from < 0 || to < from || (uint64_t)to > bytes) {
        return fail(m, "outside of the string", A);
    }
    if (!make_blank(m, VAL, (uint64_t)(to - from))) {
        return false;
    }
    memory_copy(m->seat, X, VAL);
    cursor given = begin_cursor(m, A);
    cursor made = begin_cursor(m, X);
    skip_bytes(m, &given, (uint64_t)from);
    copy_bytes(m, &made, &given, (uint64_t)(to - from));
    return true;
}

static bool string_ref(machine *m) {
    uint64_t bytes = 0;
    int64_t index = 0;
    if (!want_string(m, A, &bytes) || !want_number(m, B, &index)) {
        return false;
    }
    if (index < 0 || (uint64_t)index >= bytes) {
        return fail(m, "outside of the string", B);
    }
    memory_copy(m->seat, X, A);
    cursor at = begin_cursor(m, X);
    skip_bytes(m, &at, (uint64_t)index);
    return make_number(m, VAL, next_byte(m, &at));
}

static bool is_equal_string(machine *m) {
    uint64_t a = 0;
    uint64_t b = 0;
    return want_string(m, A, &a) && want_string(m, B, &b) && give_truth(m, a == b && compare_strings(m) == 0);
}

static bool is_less_string(machine *m) {
    uint64_t a = 0;
    uint64_t b = 0;
    return want_string(m, A, &a) && want_string(m, B, &b) && give_truth(m, compare_strings(m) < 0);
}

static bool number_to_string(machine *m) {
    char digits[32];
    int64_t number = 0;
    if (!want_number(m, A, &number)) {
        return false;
    }
    int count = snprintf(digits, sizeof digits, "%lld", (long long)number);
    return make_string(m, VAL, digits, (uint64_t)count);
}

static bool string_to_symbol(machine *m) {
    char name[CHUNK_BYTES];
    uint64_t bytes = 0;
    if (!want_string(m, A, &bytes)) {
        return false;
    }
    if (bytes > CHUNK_BYTES) {
        return fail(m, "a name has 1 to 120 bytes", NIL);
    }
    memory_copy(m->seat, X, A);
    (void)short_bytes(m, X, name);
    return intern(m, VAL, name, bytes);
}

static bool symbol_to_string(machine *m) {
    return want_symbol(m, A) && memory_get(m->seat, VAL, A, SYMBOL_NAME);
}

/* A string of the numbers of its bytes. */
static bool list_to_string(machine *m) {
    uint64_t count = 0;
    int64_t byte = 0;
    memory_copy(m->seat, X, A);
    for (; take_apart(m, X, Y, X); count++) {
        if (!want_number(m, Y, &byte)) {
            return false;
        }
    }
    if (!want_end(m) || !make_blank(m, VAL, count)) {
        return false;
    }
    memory_copy(m->seat, X, VAL);
    cursor to = begin_cursor(m, X);
    while (take_apart(m, A, Y, A)) {
        (void)want_number(m, Y, &byte);
        put_byte(m, &to, (unsigned char)byte);
    }
    return true;
}

/* ---- Vectors: of more than 16 elements, a tree of vectors of 16, 256, 4096, .. of them. ---- */

/* How many elements each part of a vector of more than 16 has, but for the last. */
static int64_t part_length(int64_t of) {
    int64_t part = FIELDS;
    while (part * FIELDS < of) {
        part *= FIELDS;
    }
    return part;
}

static int64_t least(int64_t a, int64_t b) {
    return a < b ? a : b;
}

static bool make_leaf_vector(machine *m, int64_t count) {
    if (!make_object(m, VAL, (uint32_t)count, 1)) {
        return false;
    }
    memory_wr(m->seat, VAL, 0, word(VECTOR, count));
    for (uint32_t i = 0; i < count; i++) {
        memory_set(m->seat, VAL, i, B);
    }
    return true;
}

/* A vector of so many times B. */
static bool make_parts(machine *m, int64_t count) {
    if (count <= FIELDS) {
        return make_leaf_vector(m, count);
    }
    int64_t part = part_length(count);
    uint32_t parts = (uint32_t)((count + part - 1) / part);
    if (!make_object(m, VAL, parts, 1)) {
        return false;
    }
    memory_wr(m->seat, VAL, 0, word(VECTOR, count));
    for (uint32_t i = 0; i < parts; i++) {
        if (!push(m, VAL) || !make_parts(m, least(part, count - i * part))) {
            return false;
        }
        memory_copy(m->seat, Y, VAL);
        pop(m, VAL);
        memory_set(m->seat, VAL, i, Y);
    }
    return true;
}

static bool make_vector(machine *m) {
    int64_t count = 0;
    if (!want_number(m, A, &count)) {
        return false;
    }
    if (count < 0 || count > (int64_t)1 << 32) {
        return fail(m, "a length is 0 to 4294967296", A);
    }
    return make_parts(m, count);
}

static bool vector_length(machine *m) {
    uint64_t told = 0;
    return want(m, A, VECTOR, &told, "a vector wanted") && make_number(m, VAL, rest_of(told));
}

/* The part of the vector in A that has the element with the number in B: X, and its field there. */
static bool find_element(machine *m, uint32_t *field) {
    uint64_t told = 0;
    int64_t index = 0;
    if (!want(m, A, VECTOR, &told, "a vector wanted") || !want_number(m, B, &index)) {
        return false;
    }
    int64_t count = rest_of(told);
    if (index < 0 || index >= count) {
        return fail(m, "outside of the vector", B);
    }
    memory_copy(m->seat, X, A);
    while (count > FIELDS) {
        int64_t part = part_length(count);
        memory_get(m->seat, X, X, (uint32_t)(index / part));
        count = least(part, count - index / part * part);
        index %= part;
    }
    *field = (uint32_t)index;
    return true;
}

static bool vector_ref(machine *m) {
    uint32_t field = 0;
    return find_element(m, &field) && memory_get(m->seat, VAL, X, field);
}

static bool vector_set(machine *m) {
    uint32_t field = 0;
    return find_element(m, &field) && memory_set(m->seat, X, field, C) && give_unspecified(m);
}

/* ---- What threads do to what they share, in one access. ---- */

static bool vector_exchange(machine *m) {
    uint32_t field = 0;
    return find_element(m, &field) && give_truth(m, memory_cas(m->seat, X, field, C, D));
}

static bool global_exchange(machine *m) {
    return want_symbol(m, A) && give_truth(m, memory_cas(m->seat, A, SYMBOL_VALUE, B, C));
}

static bool global_swap(machine *m) {
    if (!want_symbol(m, A)) {
        return false;
    }
    return memory_xchg(m->seat, VAL, A, SYMBOL_VALUE, B) ? true : fail(m, "had no value", A);
}

static bool thread(machine *m) {
    return make_number(m, VAL, m->number);
}

static bool threads(machine *m) {
    return make_number(m, VAL, m->threads);
}

static bool yield(machine *m) {
    (void)sched_yield();
    return give_unspecified(m);
}

static bool collect(machine *m) {
    memory_gc(m->seat);
    return give_unspecified(m);
}

/* ---- Errors and output. ---- */

/* (error message), (error message about) */
static bool error(machine *m) {
    uint64_t bytes = 0;
    if (!take_apart(m, A, B, A) || !want_string(m, B, &bytes)) {
        return fail(m, "a message wanted", NIL);
    }
    if (!is_pair(m, A) || !memory_get(m->seat, C, A, CAR)) {
        memory_drop(m->seat, C);
    }
    (void)fail(m, "", C);
    if (!is_own_fault(m)) {
        memory_set(m->seat, VAL, FAULT_MESSAGE, B);
    }
    return false;
}

static bool want_error(machine *m) {
    uint64_t told = 0;
    return want(m, A, FAULT, &told, "an error wanted");
}

static bool raise_error(machine *m) {
    if (!want_error(m)) {
        return false;
    }
    m->settled = true;
    memory_copy(m->seat, VAL, A);
    return false;
}

/* A part of an error, or #f where it has none. */
static bool give_part(machine *m, uint32_t field) {
    return want_error(m) && (memory_get(m->seat, VAL, A, field) ? true : give_truth(m, false));
}

static bool error_message(machine *m) {
    return give_part(m, FAULT_MESSAGE);
}

static bool error_about(machine *m) {
    return give_part(m, FAULT_ABOUT);
}

static bool error_expression(machine *m) {
    return give_part(m, FAULT_CODE);
}

static bool display(machine *m) {
    memory_copy(m->seat, VAL, A);
    print_value(m, false);
    return give_unspecified(m);
}

static bool write_value(machine *m) {
    memory_copy(m->seat, VAL, A);
    print_value(m, true);
    return give_unspecified(m);
}

static bool newline(machine *m) {
    fputc('\n', m->out);
    return give_unspecified(m);
}

const primitive primitives[] = {
    {"+", add, FOLDED},
    {"-", subtract, NEGATED},
    {"*", multiply, FOLDED},
    {"quotient", quotient, 2},
    {"remainder", remainder_of, 2},
    {"=", is_equal_number, 2},
    {"<", is_less, 2},
    {">", is_greater, 2},
    {"<=", is_at_most, 2},
    {">=", is_at_least, 2},
    {"cons", cons, 2},
    {"car", car, 1},
    {"cdr", cdr, 1},
    {"set-car!", set_car, 2},
    {"set-cdr!", set_cdr, 2},
    {"list", list, AS_LIST},
    {"length", length, 1},
    {"reverse", reverse, 1},
    {"append", append, FOLDED},
    {"not", not, 1},
    {"null?", is_null, 1},
    {"pair?", is_a_pair, 1},
    {"number?", is_a_number, 1},
    {"string?", is_a_string, 1},
    {"symbol?", is_a_symbol, 1},
    {"vector?", is_a_vector, 1},
    {"procedure?", is_a_procedure, 1},
    {"error?", is_an_error, 1},
    {"eq?", is_same, 2},
    {"equal?", is_equal, 2},
    {"string-length", string_length, 1},
    {"string-append", string_append, FOLDED},
    {"substring", substring, 3},
    {"string-ref", string_ref, 2},
    {"string=?", is_equal_string, 2},
    {"string<?", is_less_string, 2},
    {"number->string", number_to_string, 1},
    {"string->symbol", string_to_symbol, 1},
    {"symbol->string", symbol_to_string, 1},
    {"list->string", list_to_string, 1},
    {"make-vector", make_vector, 2},
    {"vector-length", vector_length, 1},
    {"vector-ref", vector_ref, 2},
    {"vector-set!", vector_set, 3},
    {"vector-cas!", vector_exchange, 4},
    {"global-cas!", global_exchange, 3},
    {"global-swap!", global_swap, 2},
    {"thread", thread, 0},
    {"threads", threads, 0},
    {"yield", yield, 0},
    {"gc", collect, 0},
    {"error", error, AS_LIST},
    {"raise", raise_error, 1},
    {"error-message", error_message, 1},
    {"error-about", error_about, 1},
    {"error-expression", error_expression, 1},
    {"display", display, 1},
    {"write", write_value, 1},
    {"newline", newline, 0},
    {"apply", NULL, APPLIES},
};

enum { PRIMITIVES = sizeof primitives / sizeof primitives[0] };

bool name_primitives(machine *m) {
    for (int i = 0; i < PRIMITIVES; i++) {
        if (!intern(m, A, primitives[i].name, strlen(primitives[i].name)) || !make_object(m, B, 0, 1)) {
            return false;
        }
        memory_wr(m->seat, B, 0, word(PRIMITIVE, i));
        memory_set(m->seat, A, SYMBOL_VALUE, B);
    }
    return true;
}
