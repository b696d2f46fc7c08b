/*
 * Compiled code. A node is an object with its operands: number i is the word of operand i, and reference i what that operand
 * leads to. So the word of a node stands in the node above it. Behind its operands a node leads to its source.
 *
 * The word of a node: its operation in bits 0 to 7; then, for a variable, how many frames up in bits 8 to 15 and the slot in
 * bits 16 to 31; for a call, the operands in bits 8 to 15 and which of them are not leaves in bits 16 to 31; for a let, the
 * operands and the slot of the first variable.
 */
#ifndef LISP_CODE_H
#define LISP_CODE_H

#include "lisp.h"

typedef enum operation {
    /* Leaves: their value is there at once. What the reference is: */
    DO_CONSTANT, /* the value */
    DO_LOCAL,    /* null */
    DO_GLOBAL,   /* the symbol */
    DO_LAMBDA,   /* references body, source; numbers shape, word of the body */
    /* Nodes, with their operands: */
    DO_IF,            /* test, then, else */
    DO_SEQUENCE,      /* first, rest */
    DO_AND,           /* first, rest */
    DO_OR,            /* first, rest */
    DO_ASSIGN_LOCAL,  /* value; its word has the place of the variable */
    DO_ASSIGN_GLOBAL, /* value; one more reference: the symbol */
    DO_DEFINE,        /* value; the symbol */
    DO_DEFINE_ONCE,   /* value; the symbol */
    DO_LET,           /* the first values, body */
    DO_CALL,          /* arguments, procedure */
    DO_TRY,           /* body */
    DO_STOP           /* no code: the bottom of a run */
} operation;

enum { MOST_OPERANDS = 15, MOST_VARIABLES = 15 };

static inline operation operation_of(uint64_t op) {
    return (operation)(op & 255);
}

static inline bool is_leaf(uint64_t op) {
    return operation_of(op) <= DO_LAMBDA;
}

static inline uint64_t code_word(operation of, uint32_t low, uint32_t high) {
    return (uint64_t)of | (uint64_t)low << 8 | (uint64_t)high << 16;
}

static inline uint32_t low_part(uint64_t op) {
    return op >> 8 & 255;
}

static inline uint32_t high_part(uint64_t op) {
    return op >> 16 & 65535;
}

/* The operands of a node; its source is the reference behind them. */
static inline uint32_t operand_count(uint64_t op) {
    switch (operation_of(op)) {
    case DO_IF:
        return 3;
    case DO_SEQUENCE:
    case DO_AND:
    case DO_OR:
        return 2;
    case DO_LET:
    case DO_CALL:
        return low_part(op);
    default:
        return 1;
    }
}

/* The shape of a procedure: parameters without the one that takes the rest, whether there is that one, variables in all. */
static inline int64_t shape(uint32_t parameters, bool takes_rest, uint32_t variables) {
    return (int64_t)(parameters | (uint32_t)takes_rest << 8 | variables << 16);
}

static inline uint32_t shape_parameters(int64_t of) {
    return (uint32_t)of & 255;
}

static inline bool shape_takes_rest(int64_t of) {
    return (of >> 8 & 1) != 0;
}

static inline uint32_t shape_variables(int64_t of) {
    return (uint32_t)(of >> 16);
}

#endif
