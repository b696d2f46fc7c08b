/* A machine from its beginning to its end. */
#include "lisp.h"

/* The globals are made by whoever comes first: field 15 of the hub says whether they are. */
static bool make_globals(machine *m) {
    return name_forms(m) && name_primitives(m);
}

bool begin_machine(machine *m, memory_seat *seat, uint32_t number, uint32_t threads, FILE *out) {
    machine made = {.seat = seat, .out = out, .number = number, .threads = threads};
    *m = made;
    bool first = !memory_get(seat, X, HUB, HUB_CONSTANTS);
    return attach_constants(m) && begin_stack(m) && (!first || make_globals(m));
}

/* A frame for the variables of the form in ENV, which was compiled. */
static bool enter_top(machine *m) {
    uint32_t variables = top_variables(m);
    memory_drop(m->seat, ENV);
    return make_object(m, ENV, variables + 1, 0);
}

/* The form in VAL. */
static bool evaluate_form(machine *m) {
    bool done = compile_top(m) && enter_top(m) && run(m);
    m->nesting = 0;
    if (!done) {
        cut_stack(m, 0);
    }
    return done;
}

static void tell_error(machine *m, uint32_t line) {
    fprintf(m->out, "form that ends in line %u: ", line);
    print_value(m, true);
    fputc('\n', m->out);
}

bool run_text(machine *m, const char *text, size_t length) {
    source from = {.text = text, .length = length, .at = 0, .line = 1};
    for (;;) {
        read_answer read = read_value(m, &from);
        if (read == READ_END) {
            return true;
        }
        if (read == READ_FAILED || !evaluate_form(m)) {
            cut_stack(m, 0);
            tell_error(m, from.line);
            return false;
        }
    }
}
