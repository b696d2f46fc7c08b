#include "queue.h"

/* The roots that the operations use. */
#define ANCHOR (queue->anchor)
#define NEW (queue->room)
#define FIRST (queue->room + 1)  /* of a put the tail, of a take the head */
#define SECOND (queue->room + 2) /* of a put what follows it, of a take the tail */
#define NEXT (queue->room + 3)   /* of a take what follows the head */
#define NOTHING (queue->room + 4)

enum { HEAD = 0, TAIL = 1 };

/* Where an operation stands after a turn. */
typedef enum turn { TURN_OVER, TURN_EMPTY, TURN_AGAIN, TURN_BROKEN } turn;

static queue_answer not_made(cvm_status said) {
    return said == CVM_FULL ? QUEUE_FULL : QUEUE_BROKEN;
}

queue_answer queue_make(const queue *queue) {
    cvm_status said = cvm_new(queue->seat, ANCHOR, 2, 0);
    if (said == CVM_REF) {
        said = cvm_new(queue->seat, NEW, 1, 1);
    }
    if (said != CVM_REF) {
        return not_made(said);
    }
    int is_set = cvm_set(queue->seat, ANCHOR, HEAD, NEW) == CVM_OK && cvm_set(queue->seat, ANCHOR, TAIL, NEW) == CVM_OK;
    cvm_drop(queue->seat, NEW);
    return is_set ? QUEUE_DONE : QUEUE_BROKEN;
}

/* Moves the head or the tail from root `from` to root `to`, unless somebody else has moved it. */
static turn move(const queue *queue, uint32_t which, uint32_t from, uint32_t to) {
    switch (cvm_cas(queue->seat, ANCHOR, which, from, to)) {
    case CVM_YES: return TURN_OVER;
    case CVM_NO: return TURN_AGAIN;
    default: return TURN_BROKEN;
    }
}

/* Links the new node behind the last one. */
static turn link_new(const queue *queue) {
    cvm_status said = cvm_cas(queue->seat, FIRST, 0, NOTHING, NEW);
    if (said != CVM_YES) {
        return said == CVM_NO ? TURN_AGAIN : TURN_BROKEN;
    }
    return move(queue, TAIL, FIRST, NEW) == TURN_BROKEN ? TURN_BROKEN : TURN_OVER;
}

static turn put_turn(const queue *queue) {
    if (cvm_get(queue->seat, FIRST, ANCHOR, TAIL) != CVM_REF) {
        return TURN_BROKEN;
    }
    switch (cvm_get(queue->seat, SECOND, FIRST, 0)) {
    case CVM_NULL: return link_new(queue);
    case CVM_REF: return move(queue, TAIL, FIRST, SECOND) == TURN_BROKEN ? TURN_BROKEN : TURN_AGAIN;
    default: return TURN_BROKEN;
    }
}

queue_answer queue_put(const queue *queue, uint64_t number) {
    cvm_status said = cvm_new(queue->seat, NEW, 1, 1);
    if (said != CVM_REF) {
        return not_made(said);
    }
    turn turn = cvm_wr(queue->seat, NEW, 0, number) == CVM_OK ? TURN_AGAIN : TURN_BROKEN;
    while (turn == TURN_AGAIN) {
        turn = put_turn(queue);
    }
    return turn == TURN_OVER ? QUEUE_DONE : QUEUE_BROKEN;
}

/* The head and the tail are one node: the queue is empty, or the tail is one behind. */
static turn take_at_tail(const queue *queue, int is_last) {
    if (is_last) {
        return TURN_EMPTY;
    }
    return move(queue, TAIL, SECOND, NEXT) == TURN_BROKEN ? TURN_BROKEN : TURN_AGAIN;
}

static turn take_turn(const queue *queue, uint64_t *number) {
    if (cvm_get(queue->seat, FIRST, ANCHOR, HEAD) != CVM_REF || cvm_get(queue->seat, SECOND, ANCHOR, TAIL) != CVM_REF) {
        return TURN_BROKEN;
    }
    int is_last = cvm_get(queue->seat, NEXT, FIRST, 0) == CVM_NULL;
    if (cvm_same(queue->seat, FIRST, SECOND) == CVM_YES) {
        return take_at_tail(queue, is_last);
    }
    if (cvm_rd(queue->seat, NEXT, 0, number) != CVM_NUMBER) {
        return TURN_BROKEN;
    }
    return move(queue, HEAD, FIRST, NEXT);
}

queue_answer queue_take(const queue *queue, uint64_t *number) {
    turn turn = TURN_AGAIN;
    while (turn == TURN_AGAIN) {
        turn = take_turn(queue, number);
    }
    switch (turn) {
    case TURN_OVER: return QUEUE_DONE;
    case TURN_EMPTY: return QUEUE_EMPTY;
    default: return QUEUE_BROKEN;
    }
}

void queue_let_go(const queue *queue) {
    for (uint32_t root = queue->room; root < queue->room + QUEUE_ROOM; root++) {
        cvm_drop(queue->seat, root);
    }
}

void queue_leave(const queue *queue) {
    queue_let_go(queue);
    cvm_drop(queue->seat, ANCHOR);
}
