/*
 * A small Lisp whose only memory is the heap of memory.h.
 *
 * A machine is one interpreter: one thread, one seat of the heap, and a few numbers in C. Values, code, environments, the
 * stack and the globals are objects of the heap, and no reference to one ever stands in C: C has only the numbers of roots.
 * Each of the 16 roots is a register with a name of its own (enum root). A function says which roots it takes, which it
 * gives, and which others it uses.
 *
 * Functions that can fail answer false, and then root VAL is an error value: a wrong program, or a heap without room.
 */
#ifndef LISP_H
#define LISP_H

#include "memory.h"

#include <stdio.h>

/* ---- The registers. ---- */

typedef enum root {
    HUB,   /* the object that all threads share: fields 0 to 14 lead to the symbols, field 15 to the constants */
    OWN,   /* this machine's own object: the constants again, and its error for a heap without room */
    NIL,   /* null, always */
    CODE,  /* the node of code that is evaluated */
    ENV,   /* the frame of its variables; for the compiler the scope */
    STACK, /* the topmost chunk of the stack */
    VAL,   /* the value that was computed last */
    FUN,   /* the procedure that is called */
    A,     /* the arguments of a primitive, in order */
    B,
    C,
    D,
    FRAME, /* an object that is being made: a frame, or a node of code; or the node of a call that needs no stack */
    X,     /* for whoever needs them for a while; each function says so */
    Y,
    Z
} root;

enum { FIELDS = 16 };

/* ---- Values: number 0 of each object that is one tells its kind in the lowest 4 bits, and the rest above them. ---- */

typedef enum kind {
    PAIR,      /* references car, cdr */
    NUMBER,    /* the rest is the number, of 60 bits with a sign */
    SYMBOL,    /* the rest is its special form or 0; number 1 its hash; references name, value, next */
    STRING,    /* the rest is its length in bytes; 120 of them in the numbers behind; one reference to the others */
    CLOSURE,   /* the rest: parameters, whether the last takes the rest, variables; number 1 and references body, environment */
    PRIMITIVE, /* the rest is its number in the table */
    VECTOR,    /* the rest is its length; up to 16 references to the elements, or to vectors of 16, 256, .. of them */
    CONSTANT,  /* the rest is a constant */
    FAULT,     /* an error: references message, what it is about, the expression */
    NOTHING    /* the null reference: a variable without a value */
} kind;

typedef enum constant { IS_FALSE, IS_TRUE, IS_EMPTY, IS_UNSPECIFIED, CONSTANTS } constant;

enum { CAR = 0, CDR = 1 };
enum { SYMBOL_NAME = 0, SYMBOL_VALUE = 1, SYMBOL_NEXT = 2, SYMBOL_HASH = 1 };
enum { CLOSURE_BODY = 0, CLOSURE_ENV = 1, CLOSURE_CODE = 1 };
enum { FAULT_MESSAGE = 0, FAULT_ABOUT = 1, FAULT_CODE = 2 };
enum { HUB_CONSTANTS = 15, BUCKETS = 15 };
enum { OWN_FAULT = CONSTANTS }; /* the field of OWN with the error for a heap without room */

/* ---- A machine. ---- */

typedef struct machine {
    memory_seat *seat;
    FILE *out;        /* where the program prints */
    uint32_t number;  /* of this thread, from 1 */
    uint32_t threads; /* how many there are */
    uint32_t every;   /* asks for a collection after so many evaluations; 0 never */
    uint32_t ticks;   /* evaluations since it asked last */
    uint32_t top;     /* the first free slot of the topmost chunk, 1 to 16 */
    uint64_t depth;   /* slots in use, in all chunks */
    uint64_t handler; /* the depth at which the innermost `try` began; 0: none */
    uint64_t op;      /* the word of the code in CODE */
    uint32_t nesting; /* calls of reader, compiler and printer inside one another */
    uint32_t printed; /* values that the printer has yet to print before it gives up */
    bool settled;     /* whether the error in VAL has its expression */
} machine;

enum { MOST_NESTING = 400 };

/* What is read: a text with the place in it. */
typedef struct source {
    const char *text;
    size_t length, at;
    uint32_t line; /* from 1 */
} source;

/* ---- Values (values.c). ---- */

/* The word of the value of a root. */
uint64_t word_of(machine *m, root value);
/* What kind of value a word is of, and the rest of it. */
kind kind_of(uint64_t word);
int64_t rest_of(uint64_t word);
uint64_t word(kind of, int64_t rest);
/* Whether the root is that constant; whether it is a pair. */
bool is_constant(machine *m, root value, constant which);
bool is_pair(machine *m, root value);
/* Loads a constant. Gives dst. */
void load_constant(machine *m, root dst, constant which);
/* Makes an object. Gives dst. */
bool make_object(machine *m, root dst, uint32_t refs, uint32_t nums);
/* Makes a number. Gives dst, which takes part in nothing else. */
bool make_number(machine *m, root dst, int64_t number);
/* Makes a pair of two other roots. Gives dst; uses Z. */
bool make_pair(machine *m, root dst, root car, root cdr);
/* Loads both halves of the pair of a root; false where it is none (and no error is made). */
bool take_apart(machine *m, root pair, root car, root cdr);
/* Makes the error in VAL, about a root or NIL, and answers false. Uses X, Y, Z (`about` may be one of them). */
bool fail(machine *m, const char *message, root about);
/* The error in VAL for a heap without room, which was made beforehand. Answers false. */
bool fail_full(machine *m);
/* Whether VAL is the error that was made beforehand. Uses Z. */
bool is_own_fault(machine *m);
/* Makes the constants, or loads those of the hub, and what this machine has beside them. False: no room. Uses X, Y, Z. */
bool attach_constants(machine *m);

/* ---- The stack (stack.c): chunks of 15 slots, each with a reference and a number. ---- */

/* Begins an empty stack. */
bool begin_stack(machine *m);
/* Pushes a root, and a number beside it. Uses Z where a chunk is full. */
bool push(machine *m, root value);
bool push_with(machine *m, root value, uint64_t number);
/* Pops into a root. */
void pop(machine *m, root dst);
uint64_t pop_with(machine *m, root dst);
/* Drops all slots above a depth, and empties what they held. */
void cut_stack(machine *m, uint64_t depth);

/* ---- Strings (text.c). ---- */

/* A place in a string: its chunk is in a root, which moves on with it. */
typedef struct cursor {
    root chunk;
    uint32_t at;   /* bytes of the chunk that are behind it */
    uint64_t word; /* the word that it is in */
    uint64_t left; /* bytes in front of it */
} cursor;

enum { CHUNK_BYTES = 120, CHUNK_WORDS = 15 };

/* Makes a string of so many zero bytes. Gives dst; uses Z. */
bool make_blank(machine *m, root dst, uint64_t length);
/* Makes a string of these bytes. Gives dst; uses Y, Z. */
bool make_string(machine *m, root dst, const char *bytes, uint64_t length);
/* Begins at the first byte of the string in a root, which is the cursor's from then on. */
cursor begin_cursor(machine *m, root string);
/* The next byte; -1 behind the last. */
int next_byte(machine *m, cursor *at);
/* Writes the next byte of a string that make_blank made. */
void put_byte(machine *m, cursor *at, unsigned char byte);
/* Copies `count` bytes. */
void copy_bytes(machine *m, cursor *to, cursor *from, uint64_t count);
/* The bytes of a string of at most CHUNK_BYTES into `bytes`; answers how many. */
uint64_t short_bytes(machine *m, root string, char bytes[CHUNK_BYTES]);

/* ---- Symbols and globals (symbols.c). ---- */

/* The symbol of that name, of 1 to CHUNK_BYTES bytes; made if there is none, by compare-exchange in the hub. Gives dst, which is not X, Y or Z;
 * uses X, Y, Z. */
bool intern(machine *m, root dst, const char *name, uint64_t length);

/* ---- Reader, compiler, evaluator, printer. ---- */

typedef enum read_answer { READ_VALUE, READ_END, READ_FAILED } read_answer;

/* Reads one value into VAL. READ_FAILED: an error is there. Uses A, X, Y, Z. */
read_answer read_value(machine *m, source *from);
/* Compiles the value in VAL as a form at the top: CODE, with its word in m->op. ENV is its scope then. */
bool compile_top(machine *m);
/* How many variables the top form in ENV has. */
uint32_t top_variables(machine *m);
/* Names the special forms in the symbols. */
bool name_forms(machine *m);
/* Evaluates CODE in ENV into VAL; false: VAL is the error. Nothing is left on the stack. */
bool run(machine *m);
/* Prints VAL, strings and characters as they are, or so that they could be read. Uses VAL, X, Z. */
void print_value(machine *m, bool readable);

/* ---- Primitives (primitives.c). ---- */

typedef struct primitive {
    const char *name;
    bool (*body)(machine *m); /* takes its arguments from A, B, C, D; gives VAL; uses X, Y, Z */
    int arguments;            /* how many, 0 to 4; or one of these */
} primitive;

enum {
    AS_LIST = -1, /* any number, as a list in A */
    FOLDED = -2,  /* two, or any other number above 0, one after the other from the left; the body leaves C and D alone */
    NEGATED = -3, /* the same, and a single number is taken from 0 */
    APPLIES = -4  /* two, a procedure and a list: the evaluator does it */
};

extern const primitive primitives[];
/* Makes a global of each primitive. */
bool name_primitives(machine *m);

/* ---- A session (session.c). ---- */

/* Makes a machine of a seat. The first of a heap makes the globals, and ends before others begin. False: no room. */
bool begin_machine(machine *m, memory_seat *seat, uint32_t number, uint32_t threads, FILE *out);
/* Reads and evaluates all of a text; false: it told an error on m->out, and stopped there. */
bool run_text(machine *m, const char *text, size_t length);

#endif
