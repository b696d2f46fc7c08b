/*
 * Memory that is refused. Linked with --wrap for malloc, realloc and aligned_alloc, so that the library's blocks come through here: each that an
 * opening takes is refused once, and then nothing is open, and nothing is left of it, which the checker of addresses would tell. So it is with a
 * renewal: each of its blocks is refused, alone and with all behind it.
 */
#include "../common/crew.h"

enum { MUTATORS = 2, HELPERS = 1, SEATS = MUTATORS + HELPERS + 1 };

static const cvm_config GOOD = {.regions = 4, .region_words = 64, .mutators = MUTATORS, .helpers = HELPERS, .reserve = 0};

/* How many blocks are still given, or -1 where none is refused; whether only the next one is. */
static long given = -1;
static bool is_once = false;

static bool is_refused(void) {
    if (given > 0) {
        given--;
        return false;
    }
    bool is_now = given == 0;
    if (is_now && is_once) {
        given = -1;
    }
    return is_now;
}

void *__real_malloc(size_t size);
void *__real_realloc(void *block, size_t size);
void *__real_aligned_alloc(size_t alignment, size_t size);
void *__wrap_malloc(size_t size);
void *__wrap_realloc(void *block, size_t size);
void *__wrap_aligned_alloc(size_t alignment, size_t size);

void *__wrap_malloc(size_t size) {
    return is_refused() ? NULL : __real_malloc(size);
}

void *__wrap_realloc(void *block, size_t size) {
    return is_refused() ? NULL : __real_realloc(block, size);
}

void *__wrap_aligned_alloc(size_t alignment, size_t size) {
    return is_refused() ? NULL : __real_aligned_alloc(alignment, size);
}

static cvm_status open_with(long blocks, cvm_seat *seats) {
    given = blocks;
    cvm_status said = cvm_open(&GOOD, seats, SEATS);
    given = -1;
    return said;
}

/* Opens a heap once no block is refused any more, and answers how many it takes. */
static long open_at_last(cvm_seat *seats) {
    for (long blocks = 0;; blocks++) {
        cvm_status said = open_with(blocks, seats);
        if (said == CVM_DONE) {
            return blocks;
        }
        MUST(said == CVM_NO_MEMORY);
        for (size_t i = 0; i < SEATS; i++) {
            MUST(!cvm_is_open(&seats[i]));
        }
    }
}

/* The threads take memory too; the seats stay where they are. */
static void no_workers(cvm_seat *seats) {
    cvm_workers *workers = NULL;
    given = 0;
    cvm_status said = cvm_start_workers(&seats[MUTATORS], HELPERS + 1, &workers);
    given = -1;
    MUST(said == CVM_NO_MEMORY && workers == NULL);
    MUST(cvm_is_open(&seats[MUTATORS]) && cvm_is_open(&seats[SEATS - 1]));
}

/* Where seats are open and at their beginning, root 1 of the first mutator names an object with this number. */
enum { NUMBER = 77 };

static void begin(cvm_seat *seats) {
    MUST(cvm_open(&GOOD, seats, SEATS) == CVM_DONE);
    MUST(cvm_new(&seats[0], 1, 0, 1) == CVM_REF && cvm_wr(&seats[0], 1, 0, NUMBER) == CVM_OK);
}

static void end_all(cvm_seat *seats) {
    cvm_value value;
    for (size_t i = 0; i < MUTATORS; i++) {
        MUST(cvm_end(&seats[i]) == CVM_DONE && cvm_wait_working(&seats[i], &seats[MUTATORS], HELPERS + 1, &value) == CVM_ENDED);
    }
    for (size_t ended = 0; ended < HELPERS + 1;) {
        ended = 0;
        for (size_t i = MUTATORS; i < SEATS; i++) {
            ended += cvm_work(&seats[i], 100) == CVM_ENDED;
        }
    }
}

static cvm_status renew_with(long blocks, cvm_seat *seats) {
    given = blocks;
    cvm_status said = cvm_renew(seats, SEATS);
    given = -1;
    return said;
}

/* Renews a heap once no block is refused any more, and answers how many it takes. After each refusal all is as the header says. */
static long renew_at_last(bool once, long *kept, long *lost) {
    cvm_seat seats[SEATS] = {{0}};
    begin(seats);
    is_once = once;
    for (long blocks = 0;; blocks++) {
        uint64_t number = 0;
        end_all(seats);
        cvm_status said = renew_with(blocks, seats);
        if (said == CVM_NO_MEMORY) { /* as they were: they have ended */
            MUST(cvm_begin(&seats[0], CVM_GC, 0, 0, 0, 0, 0) == CVM_ENDED);
            MUST(renew_with(-1, seats) == CVM_DONE);
        } else if (said == CVM_LOST) {
            for (size_t i = 0; i < SEATS; i++) {
                MUST(!cvm_is_open(&seats[i]));
            }
            ++*lost;
            begin(seats);
        } else {
            MUST(said == CVM_NOT_RENEWED || said == CVM_DONE);
            *kept += said == CVM_NOT_RENEWED;
        }
        MUST(cvm_rd(&seats[0], 1, 0, &number) == CVM_NUMBER && number == NUMBER);
        if (said == CVM_DONE && (!once || blocks > 200)) {
            is_once = false;
            for (size_t i = 0; i < SEATS; i++) {
                MUST(cvm_close(&seats[i]) == CVM_DONE);
            }
            return blocks;
        }
    }
}

int main(void) {
    cvm_seat seats[SEATS] = {{0}};
    long blocks = open_at_last(seats);
    MUST(blocks > SEATS);
    no_workers(seats);
    /* a call of a seat takes none */
    given = 0;
    MUST(cvm_begin(&seats[0], CVM_GC, 0, 0, 0, 0, 0) == CVM_DONE);
    cvm_value value;
    MUST(cvm_go(&seats[0], 100, &value) == CVM_OK);
    for (size_t i = 0; i < SEATS; i++) {
        MUST(cvm_close(&seats[i]) == CVM_DONE);
    }
    given = -1;
    printf("memory: each of the %ld blocks of an opening was refused, and nothing was open\n", blocks);
    long kept = 0, lost = 0;
    blocks = renew_at_last(false, &kept, &lost);
    MUST(lost > 0);
    (void)renew_at_last(true, &kept, &lost);
    MUST(kept > 0);
    printf("memory: each of the %ld blocks of a renewal was refused; %ld times the heap went on, %ld times it was lost\n", blocks, kept, lost);
    return 0;
}
