/* The reader: text to values. */
#include "lisp.h"

#include <ctype.h>
#include <string.h>

static int peek(const source *from) {
    return from->at < from->length ? (unsigned char)from->text[from->at] : -1;
}

static int take(source *from) {
    int byte = peek(from);
    if (byte >= 0) {
        from->at++;
    }
    if (byte == '\n') {
        from->line++;
    }
    return byte;
}

/* An error that names the line. */
static read_answer refuse(machine *m, const source *from, const char *why) {
    char message[96];
    (void)snprintf(message, sizeof message, "line %u: %s", from->line, why);
    fail(m, message, NIL);
    return READ_FAILED;
}

static read_answer answer_of(bool done) {
    return done ? READ_VALUE : READ_FAILED;
}

/* Passes over blanks and comments; answers the byte behind them. */
static int skip_blanks(source *from) {
    for (int byte = peek(from); byte == ';' || (byte >= 0 && isspace(byte)); byte = peek(from)) {
        if (byte == ';') {
            while (peek(from) >= 0 && peek(from) != '\n') {
                take(from);
            }
        } else {
            take(from);
        }
    }
    return peek(from);
}

static bool is_delimiter(int byte) {
    return byte < 0 || isspace(byte) || strchr("()'\";", byte) != NULL;
}

/* Whether the bytes are a decimal number, and which; *fits where it has 60 bits. */
static bool is_number(const char *bytes, uint64_t length, int64_t *number, bool *fits) {
    bool minus = bytes[0] == '-' && length > 1;
    int64_t sum = 0;
    *fits = true;
    for (uint64_t i = minus; i < length; i++) {
        if (bytes[i] < '0' || bytes[i] > '9') {
            return false;
        }
        *fits = *fits && sum <= ((int64_t)1 << 59) / 10;
        sum = *fits ? sum * 10 + (bytes[i] - '0') : sum;
    }
    *number = minus ? -sum : sum;
    return length > (uint64_t)minus;
}

/* A number, #t, #f or a symbol. */
static read_answer read_atom(machine *m, source *from) {
    const char *bytes = from->text + from->at;
    uint64_t length = 0;
    int64_t number = 0;
    bool fits = false;
    while (!is_delimiter(peek(from))) {
        take(from);
        length++;
    }
    if (is_number(bytes, length, &number, &fits)) {
        return fits ? answer_of(make_number(m, VAL, number)) : refuse(m, from, "number too large");
    }
    if (length == 2 && (memcmp(bytes, "#t", 2) == 0 || memcmp(bytes, "#f", 2) == 0)) {
        load_constant(m, VAL, bytes[1] == 't' ? IS_TRUE : IS_FALSE);
        return READ_VALUE;
    }
    return bytes[0] == '#' ? refuse(m, from, "#t or #f wanted") : answer_of(intern(m, VAL, bytes, length));
}

/* One byte of a string; -1 at its end, -2 where the text ends. */
static int string_byte(source *from) {
    int byte = take(from);
    if (byte == '"') {
        return -1;
    }
    if (byte != '\\') {
        return byte < 0 ? -2 : byte;
    }
    byte = take(from);
    return byte < 0 ? -2 : byte == 'n' ? '\n' : byte == 't' ? '\t' : byte;
}

/* Reads it twice: how long it is, and then its bytes. */
static read_answer read_string(machine *m, source *from) {
    source ahead = *from;
    uint64_t length = 0;
    int byte = string_byte(&ahead);
    for (; byte >= 0; byte = string_byte(&ahead)) {
        length++;
    }
    if (byte == -2) {
        return refuse(m, from, "a string has no end");
    }
    if (!make_blank(m, VAL, length)) {
        return READ_FAILED;
    }
    memory_copy(m->seat, Y, VAL);
    cursor to = begin_cursor(m, Y);
    for (byte = string_byte(from); byte >= 0; byte = string_byte(from)) {
        put_byte(m, &to, (unsigned char)byte);
    }
    return READ_VALUE;
}

/* Turns the list in A round, in place, before VAL, which is its end: VAL. Uses X. */
static void turn_round(machine *m) {
    while (is_pair(m, A)) {
        memory_get(m->seat, X, A, CDR);
        memory_set(m->seat, A, CDR, VAL);
        memory_copy(m->seat, VAL, A);
        memory_copy(m->seat, A, X);
    }
}

/* Behind a dot: one value and the closing parenthesis. The values before it are on the stack. */
static read_answer read_tail(machine *m, source *from) {
    read_answer tail = read_value(m, from);
    if (tail == READ_FAILED) {
        return tail;
    }
    if (tail == READ_END || skip_blanks(from) != ')') {
        return refuse(m, from, "one value wanted behind the dot");
    }
    take(from);
    return READ_VALUE;
}

static bool at_dot(const source *from) {
    bool last = from->at + 1 >= from->length;
    return peek(from) == '.' && (last || is_delimiter((unsigned char)from->text[from->at + 1]));
}

/* The rest of a list: collects values in the list on the stack, the last one first. VAL is its end, or an error. */
static read_answer read_items(machine *m, source *from) {
    for (;;) {
        int byte = skip_blanks(from);
        if (byte == ')') {
            take(from);
            load_constant(m, VAL, IS_EMPTY);
            return READ_VALUE;
        }
        if (at_dot(from)) {
            take(from);
            return read_tail(m, from);
        }
        read_answer item = read_value(m, from);
        if (item != READ_VALUE) {
            return item == READ_END ? refuse(m, from, "a list has no end") : item;
        }
        pop(m, A);
        if (!make_pair(m, A, VAL, A) || !push(m, A)) {
            return READ_FAILED;
        }
    }
}

static read_answer read_list(machine *m, source *from) {
    load_constant(m, A, IS_EMPTY);
    if (!push(m, A)) {
        return READ_FAILED;
    }
    read_answer items = read_items(m, from);
    if (items == READ_VALUE) {
        pop(m, A);
        turn_round(m);
    }
    return items;
}

/* (quote value). */
static read_answer read_quoted(machine *m, source *from) {
    read_answer quoted = read_value(m, from);
    if (quoted != READ_VALUE) {
        return quoted == READ_END ? refuse(m, from, "a value wanted behind '") : quoted;
    }
    load_constant(m, A, IS_EMPTY);
    return answer_of(make_pair(m, A, VAL, A) && intern(m, VAL, "quote", 5) && make_pair(m, VAL, VAL, A));
}

static read_answer read_here(machine *m, source *from) {
    switch (skip_blanks(from)) {
    case -1:
        return READ_END;
    case '(':
        take(from);
        return read_list(m, from);
    case ')':
        return refuse(m, from, ") without (");
    case '\'':
        take(from);
        return read_quoted(m, from);
    case '"':
        take(from);
        return read_string(m, from);
    default:
        return read_atom(m, from);
    }
}

read_answer read_value(machine *m, source *from) {
    if (m->nesting >= MOST_NESTING) {
        return refuse(m, from, "nested too deep");
    }
    m->nesting++;
    read_answer read = read_here(m, from);
    m->nesting--;
    return read;
}
