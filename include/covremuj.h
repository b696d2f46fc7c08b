/*
 * covremuj.h: a heap whose objects are collected and moved while threads use them.
 *
 * A program opens a heap with some seats. A seat is what one thread at a time works through: those of the mutators
 * make, load and store objects; those of the helpers and of the control collect. A mutator never holds an address. It
 * has 16 roots, numbered 0 to 15, and each command names roots: "load field 2 of the object of root 3 into root 4".
 * What no root of any mutator leads to is garbage. There are no barriers to place, no handles of objects to register,
 * and nothing to scan.
 *
 *     cvm_config config = {.regions = 16, .region_words = 256, .mutators = 1, .helpers = 0, .reserve = 2};
 *     cvm_seat seats[CVM_MOST_SEATS] = {{0}};
 *     cvm_workers *workers = NULL;
 *     if (cvm_open(&config, seats, 2) != CVM_DONE || cvm_start_workers(seats + 1, 1, &workers) != CVM_DONE) return 1;
 *     cvm_new(&seats[0], 1, 1, 1);        root 1 names a new object of one reference and one number
 *     cvm_wr(&seats[0], 1, 0, 77);        its number 0 becomes 77
 *     cvm_set(&seats[0], 0, 3, 1);        field 3 of the hub, which root 0 names, becomes root 1
 *     cvm_finish(&seats[0]);              the mutator ends; then the control does
 *     cvm_join_workers(workers);
 *     cvm_close(&seats[0]);
 *     cvm_close(&seats[1]);               the last seat of a heap frees it
 *
 * An object has 0 to 16 references and 0 to 16 numbers of 64 bits, which are null and 0 at first. It takes 3 words of
 * 8 bytes, and one more for each reference and each number. The hub is an object of 16 references and no number that
 * exists from the start, and that root 0 of every mutator names at first. All other roots are null at first.
 *
 * WHAT IS PROVED. The functions of the part "The proved functions" below are compiled from proved text. What a seat
 * was answered is its thread's part of a legal history: one order of the calls of all threads, in which each is
 * answered as by a graph of objects that are never moved and never freed. Where cvm_close_all gives up the seats that
 * one cvm_open gave, it is one history for all of them, in which each call stands once; and cvm_renew goes on with the
 * graph after that history (docs/LIBRARY.md says by which contracts). The inline functions, the file library/workers.c,
 * and the wrappers for other languages are not proved.
 * Nothing is claimed about time, progress or fairness.
 *
 * WHAT IS BELIEVED AT THE BORDER. The proved functions check all that they can see: an empty seat, a seat of the
 * wrong kind, a call in progress, numbers out of range. They cannot check this:
 *
 *   1. A seat is used by one call at a time. It may go from one thread to another where something orders that: a
 *      lock, a thread's start or its join, or a sequentially consistent atomic. Two calls to one seat at once: one of
 *      them may find it empty (CVM_NOT_OPEN), or both free the same memory; from there on anything may happen.
 *   2. A cvm_seat holds what cvm_open, cvm_move or an initializer of {0} wrote there. Any other bytes are taken
 *      for an address. A copy is used by nobody: two copies of a seat lead to the same as two calls at once, and a
 *      copy of a seat that was closed is an address that was freed. Seats that cvm_renew is given are of one heap.
 *   3. Pointers are not null, point to what their types say, and what they point to is used by nobody else during
 *      the call.
 *   4. No call is made from a handler of signals, in the child of a fork where there were threads, or by the
 *      program's own malloc. A handler that breaks in between two accesses of its thread's own call does what rule 1
 *      forbids.
 *   5. malloc, realloc and free are those of one allocator, which aligns a block to each power of two up to 16 that
 *      divides its size. The memory of the heap and of the seats comes from there, in cvm_open, and that of another
 *      heap in cvm_renew; a call of a seat takes no memory.
 *
 * These are no matters of safety, but a program stands still where they are broken:
 *
 *   6. Someone works for the control, and the more often the better. Else cvm_new answers CVM_AGAIN for ever once
 *      the regions are used up.
 *   7. A mutator whose call has begun goes on with it. While a call stands still, no collection ends: each waits
 *      for it, and calls of others wait for the collection. A seat between two calls holds up nobody. So a thread
 *      that dies, or is cancelled, in a call holds up every collection for ever.
 *   8. A control that is in a pause goes on with it, and a helper with the unit of work that it has begun, for
 *      which a pause waits. Who gives steps to several seats gives them in turn, and not to one until it has ended.
 *      cvm_stop_workers may leave them in the middle.
 *
 * THREADS. All functions may be called from any thread, also at the same time for different seats, of one heap or of
 * many. cvm_open, cvm_close_all and cvm_renew use all seats that they are given. No function locks, and none waits
 * but those that say so.
 *
 * LIMITS. 4 to 64 regions, 1 to 8 mutators, 0 to 3 helpers, one control; 16 roots and 4 pin slots for each mutator; 16
 * references and 16 numbers for an object; 4,294,967,295 objects made by a mutator in its life, or until cvm_renew. The
 * number of seats is fixed by cvm_open.
 */
#ifndef COVREMUJ_H
#define COVREMUJ_H

#include <stdbool.h>
#include <stddef.h>
#include <stdint.h>

#ifdef __cplusplus
extern "C" {
#define CVM_ASSERT(condition) static_assert(condition, #condition)
#else
#define CVM_ASSERT(condition) _Static_assert(condition, #condition)
#endif

enum {
    CVM_ROOTS = 16,       /* roots of a mutator */
    CVM_PINS = 4,         /* pin slots of a mutator */
    CVM_MOST_FIELDS = 16, /* references of an object, and numbers of an object, at most */
    CVM_LAST_INDEX = 31,  /* the largest field or index that a command may name; above those of the object it is answered CVM_BAD */
    CVM_HEAD_WORDS = 3,   /* words of an object besides its references and numbers */
    CVM_LEAST_REGIONS = 4,
    CVM_MOST_REGIONS = 64,
    CVM_LEAST_REGION_WORDS = 64,
    CVM_MOST_REGION_WORDS = 33554432,
    CVM_MOST_MUTATORS = 8,
    CVM_MOST_HELPERS = 3,
    CVM_MOST_SEATS = 12
};

/* A seat of a heap, or none: {0}. It is passed by its address, never copied, and moved by cvm_move alone. */
typedef struct cvm_seat {
    void *at;     /* the library's */
    bool is_open; /* the library's */
} cvm_seat;

/* The sizes of a heap. */
typedef struct cvm_config {
    size_t regions;      /* regions, 4 to 64 */
    size_t region_words; /* words of 8 bytes of each region, 64 to 2^25; an object lies within one region */
    size_t mutators;     /* seats that make, load and store objects, 1 to 8 */
    size_t helpers;      /* seats that help the control, 0 to 3 */
    size_t reserve;      /* free regions that a new object leaves to the copies of a collection, fewer than the regions */
} cvm_config;

/* What belongs to a reply. Fields that do not belong to it are 0. */
typedef struct cvm_value {
    uint64_t number; /* with CVM_NUMBER: the number; with CVM_AT: the address */
    uint64_t thread; /* with CVM_REF: the name of the object is thread.count: the mutator that made it, from 1; the hub is 0.1 */
    uint64_t count;  /* with CVM_REF: and which of that mutator's objects it is, from 1; no two objects have one name. cvm_renew changes names */
} cvm_value;

/* What cvm_look tells of a seat. */
typedef struct cvm_state {
    uint64_t number; /* its machine: the mutators are 1 to T, the helpers T+1 to T+H, the control is T+H+1 */
    uint64_t kind;   /* a cvm_kind */
    uint64_t state;  /* a cvm_activity */
    uint64_t made;   /* objects that this mutator has made; 0 of others */
    uint64_t left;   /* objects that it may still make; 0 of others */
    uint64_t phase;  /* of the control: the cvm_phase in which its last pause has left the heap; 0 before the first, and of others */
    char place[8];   /* of its next step: the two letters or digits of docs/STEP_TABLE.md; "" where it has no step to make */
} cvm_state;

/*
 * What runs beside the mutators: nothing, or a part of a cycle. Only a pause changes it. While the control is in a pause, cvm_look tells
 * the phase before it as long as the place is "PL" or an earlier one, and the phase behind it from "PS" on.
 */
typedef enum cvm_phase {
    CVM_NO_CYCLE = 0,   /* nothing */
    CVM_MARKING = 1,    /* objects that roots lead to are marked */
    CVM_EVACUATING = 2, /* objects of the regions that are to be freed are copied out */
    CVM_UPDATING = 3    /* references to them are updated */
} cvm_phase;

/* Which kind of machine a seat is. */
typedef enum cvm_kind { CVM_MUTATOR = 1, CVM_HELPER = 2, CVM_CONTROL = 3 } cvm_kind;

/* What a seat is doing. */
typedef enum cvm_activity {
    CVM_FREE = 0,   /* a mutator between two calls, with nothing ordered */
    CVM_WORKS = 1,  /* a mutator with a call or an order; a helper or a control that has not ended */
    CVM_IS_OVER = 2 /* ended: it makes no step any more */
} cvm_activity;

/*
 * What all functions answer. After a status of 32 or more, and after CVM_IDLE, nothing has changed, nor where an order
 * is answered CVM_ENDED. Where steps are asked for, CVM_ENDED may also come behind the machine's last ones.
 */
typedef enum cvm_status {
    CVM_DONE = 0,  /* done: opened, ordered, closed, told */
    CVM_MORE = 1,  /* the steps asked for are made, and there are more to make */
    CVM_AGAIN = 2, /* the last step waits for another machine, and will look again the next time: yield, work for the control, or back off */
    CVM_IDLE = 3,  /* nothing is ordered, so no step was made */
    CVM_ENDED = 4, /* the machine has ended: it makes no step any more and takes no command */

    /* Replies: a call has ended. */
    CVM_REF = 8,     /* a reference: the root dst names that object now */
    CVM_NULL = 9,    /* the null reference: the root dst is null now */
    CVM_OK = 10,     /* done */
    CVM_YES = 11,    /* equal; exchanged */
    CVM_NO = 12,     /* not equal; not exchanged */
    CVM_NUMBER = 13, /* a number */
    CVM_BAD = 14,    /* the root of the object is null, or its object has no such field or number; a pin slot that is to be
                        empty is not, or the other way round; nothing has changed */
    CVM_FULL = 15,   /* no region has room, not after a full collection either; nothing has changed */
    CVM_AT = 16,     /* pinned: the address, in words, at which the object stays until the slot is emptied */

    /* What came of cvm_renew, if not CVM_DONE. */
    CVM_PINNED = 24,      /* a pin slot holds an object, which may not move: all names are as they were */
    CVM_TOO_SMALL = 25,   /* the objects do not fit, one behind the other in the order of their names and each within one region: all names are as they were */
    CVM_NOT_RENEWED = 26, /* memory was refused for the new names: all are as they were */
    CVM_LOST = 27,        /* memory was refused for the old ones too, or for the seats: nothing is left of the heap, and its seats are empty */

    /* Refusals of a seat. */
    CVM_NOT_OPEN = 32,     /* the seat is empty: never opened, moved away, or closed */
    CVM_WRONG_SEAT = 33,   /* a mutator is wanted and this is a helper or the control, or the other way round */
    CVM_BUSY = 34,         /* something is ordered, or a call is in progress; cvm_close_all: a mutator or the control has not ended; cvm_renew: a seat has not */
    CVM_SPENT = 35,        /* this mutator has made 4294967295 objects: it can only end */
    CVM_NO_COMMAND = 36,   /* no command has this number */
    CVM_OUT_OF_RANGE = 37, /* a root is not 0 to 15, a size not 0 to 16, a field or index not 0 to 31, or a pin slot not 0 to 3 */

    /* Refusals of an opening, of a closing and of a renewal. */
    CVM_BAD_REGIONS = 48,      /* the regions are not 4 to 64 */
    CVM_BAD_REGION_WORDS = 49, /* the words of a region are out of range */
    CVM_BAD_MUTATORS = 50,     /* the mutators are not 1 to 8 */
    CVM_BAD_HELPERS = 51,      /* the helpers are not 0 to 3 */
    CVM_BAD_RESERVE = 52,      /* the reserve is not less than the regions */
    CVM_BAD_SEATS = 53,        /* the count is not mutators + helpers + 1 */
    CVM_ALREADY_OPEN = 54,     /* one of the seats is not empty */
    CVM_NO_MEMORY = 55,        /* memory was refused */
    CVM_NOT_ALL = 56,          /* not all seats of one heap, in the order of their numbers */

    /* Refusals of library/workers.c. */
    CVM_NO_THREAD = 64 /* the system made no thread */
} cvm_status;

/*
 * The commands, with the arguments a, b, c, d and value that cvm_begin takes, and the replies. Others are not looked
 * at.
 */
typedef enum cvm_op {
    CVM_NEW = 0,  /* dst, refs, nums:         CVM_REF or CVM_FULL */
    CVM_GET = 1,  /* dst, src, field:         CVM_REF, CVM_NULL or CVM_BAD */
    CVM_SET = 2,  /* obj, field, val:         CVM_OK or CVM_BAD */
    CVM_CAS = 3,  /* obj, field, expect, val: CVM_YES, CVM_NO or CVM_BAD */
    CVM_XCHG = 4, /* dst, obj, field, val:    CVM_REF, CVM_NULL or CVM_BAD */
    CVM_RD = 5,   /* obj, index:              CVM_NUMBER or CVM_BAD */
    CVM_WR = 6,   /* obj, index, -, -, value: CVM_OK or CVM_BAD */
    CVM_COPY = 7, /* dst, src:                CVM_OK */
    CVM_DROP = 8, /* dst:                     CVM_OK */
    CVM_SAME = 9, /* a, b:                    CVM_YES or CVM_NO */
    CVM_GC = 10,  /*                          CVM_OK */
    CVM_PIN = 11, /* slot, obj:               CVM_AT or CVM_BAD */
    CVM_UNPIN = 12 /* slot:                   CVM_OK or CVM_BAD */
} cvm_op;

/* What the archive is compiled for. */
CVM_ASSERT(sizeof(cvm_status) == 4);
CVM_ASSERT(sizeof(size_t) == 8 && sizeof(void *) == 8 && sizeof(bool) == 1);
CVM_ASSERT(sizeof(cvm_seat) == 16 && sizeof(cvm_state) == 56);

/* ---- The proved functions. None waits, locks, starts a thread or calls back. ---- */

/*
 * Opens a heap. seats[0] to seats[T-1] become the mutators, the next H the helpers, the last one the control, and
 * belong to the caller, who closes them. `count` is T + H + 1. What it takes of memory it takes here: docs/LIBRARY.md
 * says how much. Answers CVM_DONE, or CVM_BAD_REGIONS to CVM_NO_MEMORY, of which the first that holds in the order of
 * their numbers, and then every seat is as it was.
 */
cvm_status cvm_open(const cvm_config *config, cvm_seat *seats, size_t count);

/*
 * Orders a command of a mutator between two calls, and makes no step of it. Answers CVM_DONE, or CVM_NOT_OPEN,
 * CVM_WRONG_SEAT, CVM_ENDED, CVM_BUSY, CVM_NO_COMMAND, CVM_OUT_OF_RANGE, CVM_SPENT: the first of these, in this
 * order. An order cannot be taken back.
 */
cvm_status cvm_begin(cvm_seat *seat, uint32_t op, uint32_t a, uint32_t b, uint32_t c, uint32_t d, uint64_t value);

/*
 * Makes at most `steps` steps of a mutator's call, each one access of one word. It stops at the step that ends the
 * call, and answers the reply, CVM_REF to CVM_AT, with what belongs to it in *value; at the first that waits, with
 * CVM_AGAIN; or after all, with CVM_MORE. Where the mutator has ended, by one of these steps or before, it answers
 * CVM_ENDED. Or it makes none: CVM_NOT_OPEN, CVM_WRONG_SEAT, CVM_IDLE. *value is written with a reply only.
 */
cvm_status cvm_go(cvm_seat *seat, uint32_t steps, cvm_value *value);

/*
 * Orders the end of a mutator between two calls; its next step is its last. Its roots and its pin slots stay, and keep
 * alive what they lead to: empty them first. Answers CVM_DONE, or CVM_NOT_OPEN, CVM_WRONG_SEAT, CVM_ENDED, CVM_BUSY. The control ends
 * once all mutators have, the helpers once the control has.
 */
cvm_status cvm_end(cvm_seat *seat);

/*
 * Makes at most `steps` steps of a helper or of the control. Answers CVM_MORE after all of them; CVM_AGAIN at the
 * first that waits or finds nothing to do; CVM_ENDED; or CVM_NOT_OPEN, CVM_WRONG_SEAT.
 */
cvm_status cvm_work(cvm_seat *seat, uint32_t steps);

/*
 * Tells of a seat what stands in cvm_state. Makes no step. Answers CVM_DONE or CVM_NOT_OPEN; *state is written with CVM_DONE
 * only. Who gives the control its steps one by one, and looks after each, sees every pause and of which kind it is:
 * library/users/common/pauses.h counts them.
 */
cvm_status cvm_look(cvm_seat *seat, cvm_state *state);

/*
 * Gives a seat up, which is empty then. The last seat of a heap frees it. It is never refused: a seat that has not
 * ended is a machine that makes no step any more (rules 6 to 8). Answers CVM_DONE or CVM_NOT_OPEN, so closing twice
 * does no harm.
 */
cvm_status cvm_close(cvm_seat *seat);

/*
 * Gives all seats of a heap up that has come to its end, and frees it. `seats` and `count` as for cvm_open; no other
 * call is made on a seat of that heap meanwhile. Answers CVM_NOT_OPEN where a seat is empty; else CVM_NOT_ALL where these
 * are not as many as the heap has, each at the place of its number, or are of two heaps; else CVM_BUSY where a mutator or
 * the control has not ended; and then nothing has changed. Or CVM_DONE, and where these are the seats of one cvm_open, all
 * calls that they answered stand in one legal history.
 */
cvm_status cvm_close_all(cvm_seat *seats, size_t count);

/*
 * Renews a heap that has come to its end: its graph goes on in another heap of the same sizes, whose seats take the place
 * of the old ones, before their first step. So a program goes on that would run out of names. `seats` and `count` as for
 * cvm_open; all are of one heap (rule 2), and each has ended, the helpers too, as cvm_join_workers leaves them. No other
 * call is made on a seat of that heap meanwhile.
 *
 * Answers CVM_NOT_OPEN where a seat is empty; else CVM_NOT_ALL where these are not as many as the heap has, each at the
 * place of its number; else CVM_BUSY where one has not ended; else CVM_NO_MEMORY; and then nothing has changed. Or the old
 * heap is over, and the answer is
 *
 *   CVM_DONE         the objects that roots lead to have new names, counted from 1 for each mutator, in the order of the old
 *                    ones; of each mutator cvm_look tells as many made as have names of it. References, numbers and roots
 *                    are as they were. Pin slots are empty, and were so before.
 *   CVM_PINNED, CVM_TOO_SMALL, CVM_NOT_RENEWED
 *                    the heap goes on with the names, the counts and the pins that it had, and its mutators may make calls
 *                    again, such as to empty pin slots, or to let objects go. They have as few names left as before, and
 *                    one that has none left can only end: it empties its pin slots before it makes its last object.
 *   CVM_LOST         memory was refused for that too, or for the new seats: all of them are empty.
 *
 * What is taken of memory, 48 bytes for each word of the heap, is taken before the old heap is over, but for a heap like
 * that which was given back, and for the room in which its words are computed, 25 bytes a word, without which the answer is
 * CVM_NOT_RENEWED. The time grows with the words of the heap.
 */
cvm_status cvm_renew(cvm_seat *seats, size_t count);

/* ---- Waiting and workers, of library/workers.c, which is not proved. ---- */

/*
 * Lets others run after so many fruitless rounds in a row, and counts one more: it spins for some rounds, then
 * yields, then sleeps, for at most a fifth of a millisecond. A program with a scheduler of its own defines
 * CVM_BACK_OFF before it includes this header.
 */
void cvm_back_off(uint32_t *rounds);
#ifndef CVM_BACK_OFF
#define CVM_BACK_OFF(rounds) cvm_back_off(rounds)
#endif

/* Threads that work for helpers and the control. */
typedef struct cvm_workers cvm_workers;

/*
 * Starts a thread for each of these seats, of helpers and of the control, at most CVM_MOST_SEATS. They move to the
 * threads, and are empty until cvm_join_workers or cvm_stop_workers puts them back where they were, so that memory
 * stays. Answers CVM_DONE, and *workers is the caller's; or CVM_BAD_SEATS, CVM_NOT_OPEN, CVM_WRONG_SEAT,
 * CVM_NO_MEMORY, CVM_NO_THREAD, and then no thread is left and all seats are where they were.
 */
cvm_status cvm_start_workers(cvm_seat *seats, size_t count, cvm_workers **workers);

/*
 * Waits until all of these machines have ended, which is when all mutators have, puts the seats back, and frees
 * *workers.
 */
void cvm_join_workers(cvm_workers *workers);

/*
 * Lets each thread end after the steps that it is at, waits for that, puts the seats back, and frees *workers. Others
 * may go on with the seats; until somebody does, the heap may be in the middle of a pause, in which all mutators
 * wait.
 */
void cvm_stop_workers(cvm_workers *workers);

/* ---- Calls in one piece. Each waits where it has to, and is not proved but for what it calls. ---- */

/*
 * Steps that a call in one piece asks for at once; it goes on until it has the reply, so this number only says how
 * often it looks.
 */
enum { CVM_STEPS = 4096 };

/* Makes a seat that is empty the one that `from` is, and `from` empty. Both are used by nobody else meanwhile. */
static inline void cvm_move(cvm_seat *to, cvm_seat *from) {
    *to = *from;
    from->at = NULL;
    from->is_open = false;
}

/* Whether a seat is one of a heap, and not empty. */
static inline int cvm_is_open(const cvm_seat *seat) {
    return seat->is_open;
}

/* The seats of a heap of these sizes, as cvm_open takes them. */
static inline size_t cvm_seat_count(const cvm_config *config) {
    return config->mutators + config->helpers + 1;
}

/* Whether a status is the reply to a call. */
static inline int cvm_is_reply(cvm_status status) {
    return status >= CVM_REF && status <= CVM_AT;
}

/* Whether a status says that nothing was done, and why. */
static inline int cvm_is_refusal(cvm_status status) {
    return status >= CVM_NOT_OPEN;
}

/*
 * Goes on with the call of a mutator until it waits or is answered: the reply, CVM_AGAIN, or what cvm_go refuses.
 * Where it answers CVM_AGAIN the call is still in progress: this function or cvm_wait goes on with it.
 */
static inline cvm_status cvm_poll(cvm_seat *seat, cvm_value *value) {
    cvm_status said = CVM_MORE;
    while (said == CVM_MORE) {
        said = cvm_go(seat, CVM_STEPS, value);
    }
    return said;
}

/* Goes on with the call of a mutator until it is answered, and waits for others where it has to. */
static inline cvm_status cvm_wait(cvm_seat *seat, cvm_value *value) {
    uint32_t rounds = 0;
    cvm_status said = cvm_poll(seat, value);
    while (said == CVM_AGAIN) {
        CVM_BACK_OFF(&rounds);
        said = cvm_poll(seat, value);
    }
    return said;
}

/*
 * The same for a thread that also works for helpers and the control of the heap, whose seats these are: where the
 * call waits, it makes steps of theirs. So a program of one thread needs no worker. CVM_AGAIN comes here only where
 * one of these seats is empty or no worker's.
 */
static inline cvm_status cvm_wait_working(cvm_seat *seat, cvm_seat *working, size_t count, cvm_value *value) {
    cvm_status said = cvm_poll(seat, value);
    while (said == CVM_AGAIN) {
        for (size_t i = 0; i < count; i++) {
            if (cvm_is_refusal(cvm_work(&working[i], CVM_STEPS))) {
                return CVM_AGAIN;
            }
        }
        said = cvm_poll(seat, value);
    }
    return said;
}

/* Orders a command and waits for its reply, with what belongs to it. Answers that reply, or what cvm_begin refuses. */
static inline cvm_status cvm_call(cvm_seat *seat, cvm_op op, uint32_t a, uint32_t b, uint32_t c, uint32_t d, uint64_t value, cvm_value *answer) {
    cvm_status said = cvm_begin(seat, op, a, b, c, d, value);
    return said == CVM_DONE ? cvm_wait(seat, answer) : said;
}

/*
 * Makes an object of `refs` null references and `nums` zeros, which root dst names then: CVM_REF; or CVM_FULL where
 * live objects leave no room. Where no region has room it waits for a collection, for as long as that takes (rule 6).
 */
static inline cvm_status cvm_new(cvm_seat *seat, uint32_t dst, uint32_t refs, uint32_t nums) {
    cvm_value name;
    return cvm_call(seat, CVM_NEW, dst, refs, nums, 0, 0, &name);
}

/*
 * The same, but it does not wait: where it would have to, it answers CVM_AGAIN, and the call is in progress. It is
 * ended by cvm_poll or cvm_wait, with the reply of cvm_new; until then the seat takes no other command.
 */
static inline cvm_status cvm_try_new(cvm_seat *seat, uint32_t dst, uint32_t refs, uint32_t nums) {
    cvm_value name;
    cvm_status said = cvm_begin(seat, CVM_NEW, dst, refs, nums, 0, 0);
    return said == CVM_DONE ? cvm_poll(seat, &name) : said;
}

/* Loads a reference of the object of root src into root dst: CVM_REF, CVM_NULL, or CVM_BAD. */
static inline cvm_status cvm_get(cvm_seat *seat, uint32_t dst, uint32_t src, uint32_t field) {
    cvm_value name;
    return cvm_call(seat, CVM_GET, dst, src, field, 0, 0, &name);
}

/* Stores root val, which may be null, into a reference of the object of root obj: CVM_OK or CVM_BAD. */
static inline cvm_status cvm_set(cvm_seat *seat, uint32_t obj, uint32_t field, uint32_t val) {
    cvm_value none;
    return cvm_call(seat, CVM_SET, obj, field, val, 0, 0, &none);
}

/*
 * Stores root val there if the reference is root expect, in one step: CVM_YES, CVM_NO where it is another one, or
 * CVM_BAD.
 */
static inline cvm_status cvm_cas(cvm_seat *seat, uint32_t obj, uint32_t field, uint32_t expect, uint32_t val) {
    cvm_value none;
    return cvm_call(seat, CVM_CAS, obj, field, expect, val, 0, &none);
}

/*
 * Stores root val there, and what was there into root dst, in one step: CVM_REF or CVM_NULL, what was there, or
 * CVM_BAD.
 */
static inline cvm_status cvm_xchg(cvm_seat *seat, uint32_t dst, uint32_t obj, uint32_t field, uint32_t val) {
    cvm_value name;
    return cvm_call(seat, CVM_XCHG, dst, obj, field, val, 0, &name);
}

/* Loads a number of the object of root obj into *number: CVM_NUMBER; or CVM_BAD, and *number stays. */
static inline cvm_status cvm_rd(cvm_seat *seat, uint32_t obj, uint32_t index, uint64_t *number) {
    cvm_value value;
    cvm_status said = cvm_call(seat, CVM_RD, obj, index, 0, 0, 0, &value);
    if (said == CVM_NUMBER) {
        *number = value.number;
    }
    return said;
}

/* Stores a number into the object of root obj: CVM_OK or CVM_BAD. */
static inline cvm_status cvm_wr(cvm_seat *seat, uint32_t obj, uint32_t index, uint64_t number) {
    cvm_value none;
    return cvm_call(seat, CVM_WR, obj, index, 0, 0, number, &none);
}

/* Root dst becomes root src: CVM_OK. */
static inline cvm_status cvm_copy(cvm_seat *seat, uint32_t dst, uint32_t src) {
    cvm_value none;
    return cvm_call(seat, CVM_COPY, dst, src, 0, 0, 0, &none);
}

/* Root dst becomes null: CVM_OK. */
static inline cvm_status cvm_drop(cvm_seat *seat, uint32_t dst) {
    cvm_value none;
    return cvm_call(seat, CVM_DROP, dst, 0, 0, 0, 0, &none);
}

/* Whether two roots are one reference, or both null: CVM_YES or CVM_NO. */
static inline cvm_status cvm_same(cvm_seat *seat, uint32_t a, uint32_t b) {
    cvm_value none;
    return cvm_call(seat, CVM_SAME, a, b, 0, 0, 0, &none);
}

/* Asks for a collection, and does not wait for it: CVM_OK. */
static inline cvm_status cvm_gc(cvm_seat *seat) {
    cvm_value none;
    return cvm_call(seat, CVM_GC, 0, 0, 0, 0, 0, &none);
}

/*
 * Pins the object of root obj by an empty pin slot, so that it does not move until every slot that holds it is empty:
 * CVM_AT, and *address is where it stays, the same for each slot that holds it; or CVM_BAD, and *address stays. What a slot
 * holds is kept as by a root.
 */
static inline cvm_status cvm_pin(cvm_seat *seat, uint32_t slot, uint32_t obj, uint64_t *address) {
    cvm_value value;
    cvm_status said = cvm_call(seat, CVM_PIN, slot, obj, 0, 0, 0, &value);
    if (said == CVM_AT) {
        *address = value.number;
    }
    return said;
}

/* Empties a pin slot: CVM_OK; or CVM_BAD where it is empty. */
static inline cvm_status cvm_unpin(cvm_seat *seat, uint32_t slot) {
    cvm_value none;
    return cvm_call(seat, CVM_UNPIN, slot, 0, 0, 0, 0, &none);
}

/*
 * Ends a mutator between two calls, and waits until it has: CVM_ENDED, also where it had before; or what cvm_end
 * refuses.
 */
static inline cvm_status cvm_finish(cvm_seat *seat) {
    cvm_value none;
    cvm_status said = cvm_end(seat);
    return said == CVM_DONE ? cvm_wait(seat, &none) : said;
}

/*
 * Works for a helper or the control until it has ended, or `goes_on` answers 0, which is asked after each round of
 * steps and may be null. Backs off where there is nothing to do. For a thread of the caller that serves the seat.
 * Answers CVM_ENDED, CVM_MORE where it was told to stop, or what cvm_work refuses.
 */
static inline cvm_status cvm_serve(cvm_seat *seat, int (*goes_on)(void *), void *context) {
    uint32_t rounds = 0;
    while (goes_on == NULL || goes_on(context)) {
        cvm_status said = cvm_work(seat, CVM_STEPS);
        if (said == CVM_AGAIN) {
            CVM_BACK_OFF(&rounds);
        } else if (said == CVM_MORE) {
            rounds = 0;
        } else {
            return said;
        }
    }
    return CVM_MORE;
}

/* What a status is called, without the CVM_. */
static inline const char *cvm_status_name(cvm_status status) {
    switch (status) {
    case CVM_DONE: return "DONE";
    case CVM_MORE: return "MORE";
    case CVM_AGAIN: return "AGAIN";
    case CVM_IDLE: return "IDLE";
    case CVM_ENDED: return "ENDED";
    case CVM_REF: return "REF";
    case CVM_NULL: return "NULL";
    case CVM_OK: return "OK";
    case CVM_YES: return "YES";
    case CVM_NO: return "NO";
    case CVM_NUMBER: return "NUMBER";
    case CVM_BAD: return "BAD";
    case CVM_FULL: return "FULL";
    case CVM_AT: return "AT";
    case CVM_PINNED: return "PINNED";
    case CVM_TOO_SMALL: return "TOO_SMALL";
    case CVM_NOT_RENEWED: return "NOT_RENEWED";
    case CVM_LOST: return "LOST";
    case CVM_NOT_OPEN: return "NOT_OPEN";
    case CVM_WRONG_SEAT: return "WRONG_SEAT";
    case CVM_BUSY: return "BUSY";
    case CVM_SPENT: return "SPENT";
    case CVM_NO_COMMAND: return "NO_COMMAND";
    case CVM_OUT_OF_RANGE: return "OUT_OF_RANGE";
    case CVM_BAD_REGIONS: return "BAD_REGIONS";
    case CVM_BAD_REGION_WORDS: return "BAD_REGION_WORDS";
    case CVM_BAD_MUTATORS: return "BAD_MUTATORS";
    case CVM_BAD_HELPERS: return "BAD_HELPERS";
    case CVM_BAD_RESERVE: return "BAD_RESERVE";
    case CVM_BAD_SEATS: return "BAD_SEATS";
    case CVM_ALREADY_OPEN: return "ALREADY_OPEN";
    case CVM_NO_MEMORY: return "NO_MEMORY";
    case CVM_NOT_ALL: return "NOT_ALL";
    case CVM_NO_THREAD: return "NO_THREAD";
    }
    return "no status";
}

#undef CVM_ASSERT
#ifdef __cplusplus
}
#endif

#endif
