/*
 * Every refusal of every function: the status that the header names, and that nothing has changed. With the word
 * `leak` it forgets a heap instead, which the checker of addresses has to tell.
 */
#include "../common/crew.h"

#include <string.h>

enum { MUTATORS = 2, HELPERS = 1, SEATS = MUTATORS + HELPERS + 1, HELPER = MUTATORS, CONTROL = SEATS - 1 };

static const cvm_config GOOD = {.regions = 4, .region_words = 64, .mutators = MUTATORS, .helpers = HELPERS, .reserve = 0};
static const cvm_value UNTOUCHED = {11, 22, 33};

/* ---- Opening ---- */

static void refused(cvm_config config, size_t count, cvm_status why) {
    cvm_seat seats[CVM_MOST_SEATS + 1] = {{0}};
    MUST(cvm_open(&config, seats, count) == why);
    for (size_t i = 0; i < CVM_MOST_SEATS + 1; i++) {
        MUST(!cvm_is_open(&seats[i]));
    }
}

static cvm_config with(size_t regions, size_t words, size_t mutators, size_t helpers, size_t reserve) {
    cvm_config config = {regions, words, mutators, helpers, reserve};
    return config;
}

static void bad_sizes(void) {
    refused(with(3, 64, 1, 0, 0), 2, CVM_BAD_REGIONS);
    refused(with(65, 64, 1, 0, 0), 2, CVM_BAD_REGIONS);
    refused(with(SIZE_MAX, 64, 1, 0, 0), 2, CVM_BAD_REGIONS);
    refused(with(4, 63, 1, 0, 0), 2, CVM_BAD_REGION_WORDS);
    refused(with(4, CVM_MOST_REGION_WORDS + 1, 1, 0, 0), 2, CVM_BAD_REGION_WORDS);
    refused(with(4, SIZE_MAX, 1, 0, 0), 2, CVM_BAD_REGION_WORDS);
    refused(with(4, 64, 0, 0, 0), 1, CVM_BAD_MUTATORS);
    refused(with(4, 64, 9, 0, 0), 10, CVM_BAD_MUTATORS);
    refused(with(4, 64, 1, 4, 0), 6, CVM_BAD_HELPERS);
    refused(with(4, 64, 1, 0, 4), 2, CVM_BAD_RESERVE);
    refused(with(4, 64, 1, 0, 0), 0, CVM_BAD_SEATS);
    refused(with(4, 64, 1, 0, 0), 1, CVM_BAD_SEATS);
    refused(with(4, 64, 1, 0, 0), 3, CVM_BAD_SEATS);
    refused(with(4, 64, SIZE_MAX, 0, 0), 0, CVM_BAD_MUTATORS);
    /* the first that is out of range is named */
    refused(with(3, 63, 0, 4, 9), 0, CVM_BAD_REGIONS);
    refused(with(4, 63, 0, 4, 9), 0, CVM_BAD_REGION_WORDS);
    refused(with(4, 64, 0, 4, 9), 0, CVM_BAD_MUTATORS);
    refused(with(4, 64, 1, 4, 9), 0, CVM_BAD_HELPERS);
    refused(with(4, 64, 1, 3, 9), 0, CVM_BAD_RESERVE);
}

/* A seat that is open is kept, and the empty ones beside it stay empty. */
static void open_twice(cvm_seat *seats) {
    cvm_seat others[SEATS] = {{0}};
    cvm_move(&others[2], &seats[1]);
    MUST(cvm_open(&GOOD, others, SEATS) == CVM_ALREADY_OPEN);
    MUST(!cvm_is_open(&others[0]) && !cvm_is_open(&others[1]) && cvm_is_open(&others[2]) && !cvm_is_open(&others[3]));
    cvm_move(&seats[1], &others[2]);
    MUST(cvm_open(&GOOD, seats, SEATS) == CVM_ALREADY_OPEN);
}

/* ---- A seat ---- */

static void all_refuse(cvm_seat *seat, cvm_status why) {
    cvm_value value = UNTOUCHED;
    MUST(cvm_begin(seat, CVM_GC, 0, 0, 0, 0, 0) == why);
    MUST(cvm_begin(seat, 99, 99, 99, 99, 99, 99) == why);
    MUST(cvm_go(seat, 10, &value) == why);
    MUST(cvm_go(seat, 0, &value) == why);
    MUST(cvm_end(seat) == why);
    MUST(memcmp(&value, &UNTOUCHED, sizeof value) == 0);
}

static void empty_seats(void) {
    cvm_seat none = {0};
    cvm_state state = {1, 2, 3, 4, 5, 6, "7"}, was = state;
    all_refuse(&none, CVM_NOT_OPEN);
    MUST(cvm_work(&none, 10) == CVM_NOT_OPEN);
    MUST(cvm_look(&none, &state) == CVM_NOT_OPEN);
    MUST(memcmp(&state, &was, sizeof state) == 0);
    MUST(cvm_close(&none) == CVM_NOT_OPEN);
    MUST(cvm_close_all(&none, 1) == CVM_NOT_OPEN);
    MUST(cvm_renew(&none, 1) == CVM_NOT_OPEN);
    MUST(cvm_new(&none, 1, 0, 0) == CVM_NOT_OPEN);
    MUST(cvm_finish(&none) == CVM_NOT_OPEN);
    MUST(!cvm_is_open(&none));
}

static void wrong_seats(cvm_seat *seats) {
    all_refuse(&seats[HELPER], CVM_WRONG_SEAT);
    all_refuse(&seats[CONTROL], CVM_WRONG_SEAT);
    MUST(cvm_work(&seats[0], 10) == CVM_WRONG_SEAT);
    MUST(cvm_work(&seats[1], 0) == CVM_WRONG_SEAT);
}

static int is_state(cvm_seat *seat, uint64_t number, cvm_kind kind, cvm_activity activity, uint64_t made) {
    cvm_state state;
    uint64_t left = kind == CVM_MUTATOR ? UINT32_MAX - made : 0;
    return cvm_look(seat, &state) == CVM_DONE && state.number == number && state.kind == kind && state.state == activity && state.made == made &&
           state.left == left;
}

static int stands(cvm_seat *seat, uint64_t phase, const char *place) {
    cvm_state state;
    return cvm_look(seat, &state) == CVM_DONE && state.phase == phase && strcmp(state.place, place) == 0;
}

static void looks(cvm_seat *seats) {
    MUST(is_state(&seats[0], 1, CVM_MUTATOR, CVM_FREE, 0));
    MUST(is_state(&seats[1], 2, CVM_MUTATOR, CVM_FREE, 0));
    MUST(is_state(&seats[HELPER], 3, CVM_HELPER, CVM_WORKS, 0));
    MUST(is_state(&seats[CONTROL], 4, CVM_CONTROL, CVM_WORKS, 0));
    MUST(stands(&seats[0], CVM_NO_CYCLE, "") && stands(&seats[HELPER], CVM_NO_CYCLE, "H0") && stands(&seats[CONTROL], CVM_NO_CYCLE, "I0"));
}

/* ---- Commands out of range: each argument in turn, one above its largest value, and the largest number of all ---- */

typedef struct command {
    cvm_op op;
    uint32_t most[4]; /* the largest value of each argument */
    uint32_t count;   /* how many the command looks at */
} command;

static const command COMMANDS[] = {
    {CVM_NEW, {15, 16, 16, 0}, 3}, {CVM_GET, {15, 15, 31, 0}, 3}, {CVM_SET, {15, 31, 15, 0}, 3},  {CVM_CAS, {15, 31, 15, 15}, 4},
    {CVM_XCHG, {15, 15, 31, 15}, 4}, {CVM_RD, {15, 31, 0, 0}, 2},  {CVM_WR, {15, 31, 0, 0}, 2},    {CVM_COPY, {15, 15, 0, 0}, 2},
    {CVM_DROP, {15, 0, 0, 0}, 1},    {CVM_SAME, {15, 15, 0, 0}, 2}, {CVM_GC, {0, 0, 0, 0}, 0},    {CVM_PIN, {3, 15, 0, 0}, 2},
    {CVM_UNPIN, {3, 0, 0, 0}, 1},
};

static cvm_status begin(cvm_seat *seat, cvm_op op, const uint32_t *words) {
    return cvm_begin(seat, op, words[0], words[1], words[2], words[3], 0);
}

static void out_of_range(cvm_seat *seat, const command *command) {
    for (uint32_t i = 0; i < command->count; i++) {
        const uint32_t wrong[] = {command->most[i] + 1, UINT32_MAX, UINT32_C(1) << 31};
        for (size_t k = 0; k < 3; k++) {
            uint32_t words[4] = {0};
            words[i] = wrong[k];
            MUST(begin(seat, command->op, words) == CVM_OUT_OF_RANGE);
            MUST(is_state(seat, 1, CVM_MUTATOR, CVM_FREE, 0));
        }
    }
}

/* The largest arguments are in range, and those that the command does not look at may be anything. */
static void in_range(cvm_seat *seat, const command *command) {
    uint32_t words[4];
    cvm_value value = UNTOUCHED;
    for (uint32_t i = 0; i < 4; i++) {
        words[i] = i < command->count ? command->most[i] : UINT32_MAX;
    }
    MUST(begin(seat, command->op, words) == CVM_DONE);
    MUST(begin(seat, command->op, words) == CVM_BUSY);
    MUST(cvm_end(seat) == CVM_BUSY);
    MUST(cvm_is_reply(cvm_wait(seat, &value)));
}

static void commands(cvm_seat *seats) {
    const size_t count = sizeof COMMANDS / sizeof COMMANDS[0];
    for (size_t i = 0; i < count; i++) {
        out_of_range(&seats[0], &COMMANDS[i]);
    }
    MUST(cvm_begin(&seats[0], CVM_UNPIN + 1, 0, 0, 0, 0, 0) == CVM_NO_COMMAND);
    MUST(cvm_begin(&seats[0], UINT32_MAX, 99, 0, 0, 0, 0) == CVM_NO_COMMAND);
    for (size_t i = 0; i < count; i++) {
        in_range(&seats[1], &COMMANDS[i]);
    }
    MUST(is_state(&seats[1], 2, CVM_MUTATOR, CVM_FREE, 1));
}

/* ---- A call in progress ---- */

static void busy(cvm_seat *seat) {
    cvm_value value = UNTOUCHED;
    MUST(cvm_go(seat, 10, &value) == CVM_IDLE);
    MUST(cvm_begin(seat, CVM_DROP, 5, 0, 0, 0, 0) == CVM_DONE);
    MUST(is_state(seat, 1, CVM_MUTATOR, CVM_WORKS, 0) && stands(seat, CVM_NO_CYCLE, "E1"));
    MUST(cvm_go(seat, 0, &value) == CVM_MORE && stands(seat, CVM_NO_CYCLE, "E1"));
    MUST(cvm_go(seat, 1, &value) == CVM_MORE && stands(seat, CVM_NO_CYCLE, "E2"));
    MUST(cvm_begin(seat, CVM_GC, 0, 0, 0, 0, 0) == CVM_BUSY);
    MUST(cvm_drop(seat, 1) == CVM_BUSY);
    MUST(cvm_end(seat) == CVM_BUSY);
    MUST(cvm_finish(seat) == CVM_BUSY);
    MUST(memcmp(&value, &UNTOUCHED, sizeof value) == 0);
    MUST(cvm_wait(seat, &value) == CVM_OK);
    MUST(value.number == 0 && value.thread == 0 && value.count == 0);
    MUST(cvm_go(seat, 10, &value) == CVM_IDLE);
}

/* ---- Replies that are no refusals ---- */

/* Each call in one piece, with words of which no two could change places. */
static void good_replies(cvm_seat *seat) {
    uint64_t number = 0;
    MUST(cvm_new(seat, 1, 2, 0) == CVM_REF && cvm_new(seat, 2, 0, 2) == CVM_REF);
    MUST(cvm_set(seat, 1, 0, 2) == CVM_OK);
    MUST(cvm_get(seat, 3, 1, 0) == CVM_REF && cvm_same(seat, 3, 2) == CVM_YES && cvm_same(seat, 3, 1) == CVM_NO);
    MUST(cvm_xchg(seat, 4, 1, 0, 1) == CVM_REF && cvm_same(seat, 4, 2) == CVM_YES);
    MUST(cvm_get(seat, 5, 1, 0) == CVM_REF && cvm_same(seat, 5, 1) == CVM_YES);
    MUST(cvm_cas(seat, 1, 0, 2, 1) == CVM_NO && cvm_cas(seat, 1, 0, 1, 2) == CVM_YES);
    MUST(cvm_get(seat, 5, 1, 0) == CVM_REF && cvm_same(seat, 5, 2) == CVM_YES);
    MUST(cvm_wr(seat, 2, 1, 77) == CVM_OK && cvm_rd(seat, 2, 1, &number) == CVM_NUMBER && number == 77);
    MUST(cvm_rd(seat, 2, 0, &number) == CVM_NUMBER && number == 0);
    MUST(cvm_copy(seat, 6, 1) == CVM_OK && cvm_same(seat, 6, 1) == CVM_YES && cvm_get(seat, 7, 1, 1) == CVM_NULL);
    MUST(cvm_drop(seat, 6) == CVM_OK && cvm_same(seat, 6, 7) == CVM_YES);
    MUST(cvm_gc(seat) == CVM_OK);
}

static void bad_replies(cvm_seat *seat) {
    uint64_t number = 5;
    MUST(cvm_drop(seat, 1) == CVM_OK && cvm_drop(seat, 2) == CVM_OK);
    MUST(cvm_get(seat, 2, 1, 0) == CVM_BAD); /* root 1 is null */
    MUST(cvm_set(seat, 1, 0, 0) == CVM_BAD);
    MUST(cvm_cas(seat, 1, 0, 2, 0) == CVM_BAD);
    MUST(cvm_xchg(seat, 2, 1, 0, 0) == CVM_BAD);
    MUST(cvm_rd(seat, 1, 0, &number) == CVM_BAD && number == 5);
    MUST(cvm_wr(seat, 1, 0, 6) == CVM_BAD);
    MUST(cvm_new(seat, 1, 2, 1) == CVM_REF);
    MUST(cvm_get(seat, 2, 1, 2) == CVM_BAD); /* it has no such field */
    MUST(cvm_set(seat, 1, 2, 0) == CVM_BAD);
    MUST(cvm_cas(seat, 1, 2, 2, 0) == CVM_BAD);
    MUST(cvm_xchg(seat, 2, 1, 31, 0) == CVM_BAD);
    MUST(cvm_rd(seat, 1, 1, &number) == CVM_BAD && number == 5);
    MUST(cvm_wr(seat, 1, 31, 6) == CVM_BAD);
    MUST(cvm_same(seat, 2, 3) == CVM_YES); /* and both are still null */
    MUST(cvm_get(seat, 2, 1, 1) == CVM_NULL);
    MUST(cvm_rd(seat, 1, 0, &number) == CVM_NUMBER && number == 0);
}

/* ---- Workers ---- */

static void bad_workers(cvm_seat *seats) {
    cvm_workers *workers = NULL;
    cvm_seat none = {0};
    MUST(cvm_start_workers(seats, SEATS, &workers) == CVM_WRONG_SEAT);
    MUST(cvm_start_workers(&none, 1, &workers) == CVM_NOT_OPEN);
    MUST(cvm_start_workers(seats, CVM_MOST_SEATS + 1, &workers) == CVM_BAD_SEATS);
    MUST(workers == NULL);
}

/* ---- The end ---- */

/* Control and helper work until the mutators' calls are answered; then these end, and no call is taken any more. */
static void ends(cvm_seat *seats) {
    cvm_value value = UNTOUCHED;
    for (size_t i = 0; i < MUTATORS; i++) {
        MUST(cvm_end(&seats[i]) == CVM_DONE);
        MUST(cvm_end(&seats[i]) == CVM_BUSY);
        MUST(cvm_begin(&seats[i], CVM_GC, 0, 0, 0, 0, 0) == CVM_BUSY);
        MUST(cvm_wait_working(&seats[i], &seats[HELPER], 2, &value) == CVM_ENDED);
        all_refuse(&seats[i], CVM_ENDED);
        MUST(cvm_finish(&seats[i]) == CVM_ENDED);
        MUST(cvm_work(&seats[i], 1) == CVM_WRONG_SEAT);
    }
    MUST(cvm_close_all(seats, SEATS) == CVM_BUSY);
    MUST(cvm_renew(seats, SEATS) == CVM_BUSY);
    for (int ended = 0; ended < 2;) {
        ended = (cvm_work(&seats[CONTROL], 100) == CVM_ENDED) + (cvm_work(&seats[HELPER], 100) == CVM_ENDED);
    }
    MUST(cvm_work(&seats[CONTROL], 0) == CVM_ENDED);
    MUST(is_state(&seats[CONTROL], 4, CVM_CONTROL, CVM_IS_OVER, 0) && stands(&seats[CONTROL], CVM_NO_CYCLE, ""));
    MUST(is_state(&seats[HELPER], 3, CVM_HELPER, CVM_IS_OVER, 0));
}

static void swap(cvm_seat *a, cvm_seat *b) {
    cvm_seat other = {0};
    cvm_move(&other, a);
    cvm_move(a, b);
    cvm_move(b, &other);
}

static void close_wrong(cvm_seat *seats, cvm_seat *others) {
    MUST(cvm_close_all(seats, 0) == CVM_NOT_ALL);
    MUST(cvm_close_all(seats, SEATS - 1) == CVM_NOT_ALL);
    MUST(cvm_close_all(seats + 1, SEATS - 1) == CVM_NOT_ALL);
    swap(&seats[0], &seats[1]);
    MUST(cvm_close_all(seats, SEATS) == CVM_NOT_ALL);
    swap(&seats[0], &seats[1]);
    MUST(cvm_renew(seats, 0) == CVM_NOT_ALL);
    MUST(cvm_renew(seats, SEATS - 1) == CVM_NOT_ALL);
    swap(&seats[0], &others[0]); /* of another heap */
    MUST(cvm_close_all(seats, SEATS) == CVM_NOT_ALL);
    MUST(cvm_renew(seats, SEATS) == CVM_NOT_ALL); /* as the shares tell, since no other call is made */
    swap(&seats[0], &others[0]);
    for (size_t i = 0; i < SEATS; i++) {
        MUST(cvm_is_open(&seats[i]));
    }
}

/*
 * Seats that are given up one by one, some in mid-call: the last of them frees the heap, which the address checker
 * would miss.
 */
static void close_singly(void) {
    cvm_seat seats[SEATS] = {{0}};
    cvm_value value;
    MUST(cvm_open(&GOOD, seats, SEATS) == CVM_DONE);
    MUST(cvm_begin(&seats[0], CVM_GC, 0, 0, 0, 0, 0) == CVM_DONE);
    MUST(cvm_go(&seats[0], 2, &value) == CVM_MORE);
    for (size_t i = 0; i < SEATS; i++) {
        MUST(cvm_close(&seats[i]) == CVM_DONE);
        MUST(!cvm_is_open(&seats[i]));
        MUST(cvm_close(&seats[i]) == CVM_NOT_OPEN);
    }
}

static int leak(void) {
    cvm_seat *seats = calloc(SEATS, sizeof *seats);
    MUST(seats != NULL && cvm_open(&GOOD, seats, SEATS) == CVM_DONE);
    return 0;
}

int main(int count, char **words) {
    cvm_seat seats[SEATS] = {{0}}, others[SEATS] = {{0}};
    if (count > 1 && strcmp(words[1], "leak") == 0) {
        return leak();
    }
    bad_sizes();
    empty_seats();
    MUST(cvm_open(&GOOD, seats, SEATS) == CVM_DONE && cvm_open(&GOOD, others, SEATS) == CVM_DONE);
    open_twice(seats);
    looks(seats);
    wrong_seats(seats);
    bad_workers(seats);
    busy(&seats[0]);
    commands(seats);
    bad_replies(&seats[0]);
    good_replies(&seats[0]);
    ends(seats);
    close_wrong(seats, others);
    MUST(cvm_close_all(seats, SEATS) == CVM_DONE);
    MUST(cvm_close_all(seats, SEATS) == CVM_NOT_OPEN);
    all_refuse(&seats[0], CVM_NOT_OPEN);
    for (size_t i = 0; i < SEATS; i++) {
        MUST(cvm_close(&others[i]) == CVM_DONE);
    }
    close_singly();
    printf("misuse: each refusal has its status, and nothing changed\n");
    return 0;
}
