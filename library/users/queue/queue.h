/*
 * The queue of Michael and Scott in the heap: numbers, first in, first out, for any number of threads, without a
 * lock.
 *
 * The operations are those of docs/QUEUE.md, command by command, and in the roots' names of that page: the law of the
 * queue is proved there of the commands and replies of such threads. That this file gives these commands is not
 * proved; it is tested.
 *
 * The anchor is an object of two references, the head and the tail. A node has one reference, the next node, and one
 * number. The node at the head was taken already, or is the first one of all.
 */
#ifndef QUEUE_H
#define QUEUE_H

#include "covremuj.h"

enum { QUEUE_ROOM = 5 };

/*
 * A thread's way to a queue, whose anchor is in root `anchor`. The operations use QUEUE_ROOM roots from `room` on,
 * which are null before the first of them; behind an operation some still name nodes.
 */
typedef struct queue {
    cvm_seat *seat;
    uint32_t anchor;
    uint32_t room;
} queue;

typedef enum queue_answer {
    QUEUE_DONE,  /* made; put; got */
    QUEUE_EMPTY, /* there was no number in the queue */
    QUEUE_FULL,  /* the heap has no room: the queue is what it was */
    QUEUE_BROKEN /* a call was refused, or root `anchor` is no anchor */
} queue_answer;

/* Makes an empty queue in root `anchor`. Other threads get it as any other object, by a reference. */
queue_answer queue_make(const queue *queue);

/* Puts a number at the end. It takes effect where its node is linked to the last one. */
queue_answer queue_put(const queue *queue, uint64_t number);

/* Takes the number at the front: QUEUE_DONE, with *number, or QUEUE_EMPTY. */
queue_answer queue_take(const queue *queue, uint64_t *number);

/*
 * Makes the roots of the operations null. A node that a root names keeps alive all that were put behind it, so a
 * thread that rests between two operations, or got QUEUE_FULL, calls this.
 */
void queue_let_go(const queue *queue);

/* The same, and root `anchor` becomes null too. */
void queue_leave(const queue *queue);

#endif
