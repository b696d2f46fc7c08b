/* The printer. It makes no object but chunks of the stack; where there is no room for one, or no end, it prints "...". */
#include "lisp.h"

static void print_here(machine *m, bool readable);

static void print_string(machine *m, bool readable) {
    memory_copy(m->seat, X, VAL);
    cursor from = begin_cursor(m, X);
    if (readable) {
        fputc('"', m->out);
    }
    for (int byte = next_byte(m, &from); byte >= 0; byte = next_byte(m, &from)) {
        if (readable && (byte == '"' || byte == '\\')) {
            fputc('\\', m->out);
        }
        fputc(byte, m->out);
    }
    if (readable) {
        fputc('"', m->out);
    }
}

static void print_constant(machine *m, int64_t which) {
    static const char *const names[CONSTANTS] = {"#f", "#t", "()", "#<unspecified>"};
    fputs(which < CONSTANTS ? names[which] : "#<constant>", m->out);
}

/* Prints reference `field` of VAL, which is kept. */
static void print_field(machine *m, uint32_t field, bool readable) {
    if (!push(m, VAL)) {
        fputs("...", m->out);
        m->printed = 0;
        return;
    }
    memory_get(m->seat, VAL, VAL, field);
    print_here(m, readable);
    pop(m, VAL);
}

static void print_pair(machine *m, bool readable) {
    fputc('(', m->out);
    print_field(m, CAR, readable);
    memory_get(m->seat, VAL, VAL, CDR);
    while (is_pair(m, VAL) && m->printed > 0) {
        fputc(' ', m->out);
        print_field(m, CAR, readable);
        memory_get(m->seat, VAL, VAL, CDR);
    }
    if (!is_constant(m, VAL, IS_EMPTY)) {
        fputs(" . ", m->out);
        print_here(m, readable);
    }
    fputc(')', m->out);
}

/* An error is printed as what it says, in one line. */
static void print_fault(machine *m) {
    fputs("#<error: ", m->out);
    print_field(m, FAULT_MESSAGE, false);
    if (memory_get(m->seat, X, VAL, FAULT_ABOUT)) {
        fputs(": ", m->out);
        print_field(m, FAULT_ABOUT, true);
    }
    if (memory_get(m->seat, X, VAL, FAULT_CODE)) {
        fputs(", in ", m->out);
        print_field(m, FAULT_CODE, true);
    }
    fputc('>', m->out);
}

/* A vector of up to 16 elements; of a longer one the vectors that it is made of. */
static void print_vector(machine *m, int64_t length, bool readable) {
    int64_t parts = length;
    while (parts > FIELDS) {
        parts = (parts + FIELDS - 1) / FIELDS;
    }
    fputs(length > FIELDS ? "#<vector" : "#(", m->out);
    for (int64_t i = 0; i < parts; i++) {
        if (i > 0 || length > FIELDS) {
            fputc(' ', m->out);
        }
        print_field(m, (uint32_t)i, readable);
    }
    fputc(length > FIELDS ? '>' : ')', m->out);
}

static void print_kind(machine *m, uint64_t of, bool readable) {
    switch (kind_of(of)) {
    case PAIR:
        print_pair(m, readable);
        break;
    case NUMBER:
        fprintf(m->out, "%lld", (long long)rest_of(of));
        break;
    case SYMBOL:
        print_field(m, SYMBOL_NAME, false);
        break;
    case STRING:
        print_string(m, readable);
        break;
    case PRIMITIVE:
        fprintf(m->out, "#<primitive %s>", primitives[rest_of(of)].name);
        break;
    case VECTOR:
        print_vector(m, rest_of(of), readable);
        break;
    case CONSTANT:
        print_constant(m, rest_of(of));
        break;
    case FAULT:
        print_fault(m);
        break;
    case CLOSURE:
        fputs("#<procedure>", m->out);
        break;
    case NOTHING:
        fputs("#<nothing>", m->out);
        break;
    }
}

static void print_here(machine *m, bool readable) {
    if (m->printed == 0 || m->nesting >= MOST_NESTING) {
        fputs("...", m->out);
        return;
    }
    m->printed--;
    m->nesting++;
    print_kind(m, word_of(m, VAL), readable);
    m->nesting--;
}

void print_value(machine *m, bool readable) {
    m->printed = 100000;
    print_here(m, readable);
}
