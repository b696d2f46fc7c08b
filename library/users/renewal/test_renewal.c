/*
 * Heaps that are renewed: two mutators have a list each, in the middle of garbage, and one that both know by the hub. All end, the heap
 * is renewed, and the lists are what they were, with names that are counted from 1. Now and then an object is pinned, and then the heap
 * goes on as it was.
 */
#include "../common/crew.h"

enum { MUTATORS = 2, HELPERS = 1, WORKERS = HELPERS + 1, SEATS = MUTATORS + WORKERS, LENGTH = 12, LIST = 1, NODE = 2, SHARED = 5 };

static const cvm_config SIZES = {.regions = 16, .region_words = 64, .mutators = MUTATORS, .helpers = HELPERS, .reserve = 2};

/* A call, with the answer that it is to have; the workers make steps while it waits. */
static cvm_value call(cvm_seat *seats, size_t who, cvm_op op, uint32_t a, uint32_t b, uint32_t c, uint64_t number, cvm_status reply) {
    cvm_value value = {0};
    MUST(cvm_begin(&seats[who], op, a, b, c, 0, number) == CVM_DONE);
    MUST(cvm_wait_working(&seats[who], seats + MUTATORS, WORKERS, &value) == reply);
    return value;
}

static uint64_t number_of(size_t who, uint64_t round, uint64_t place) {
    return 1000000 * round + 1000 * (who + 1) + place;
}

/* Root LIST becomes a list of these numbers, each node of which is made behind objects that are let go. */
static void make_list(cvm_seat *seats, size_t who, uint64_t round) {
    call(seats, who, CVM_DROP, LIST, 0, 0, 0, CVM_OK);
    for (uint64_t place = 0; place < LENGTH; place++) {
        call(seats, who, CVM_NEW, NODE, 3, 3, 0, CVM_REF);
        call(seats, who, CVM_NEW, NODE, 1, 1, 0, CVM_REF);
        call(seats, who, CVM_WR, NODE, 0, 0, number_of(who, round, place), CVM_OK);
        call(seats, who, CVM_SET, NODE, 0, LIST, 0, CVM_OK);
        call(seats, who, CVM_COPY, LIST, NODE, 0, 0, CVM_OK);
    }
    call(seats, who, CVM_DROP, NODE, 0, 0, 0, CVM_OK);
}

/* The list that root `list` of this mutator names is that of another one, and each of its objects has the name that is next. */
static void see_list(cvm_seat *seats, size_t who, uint32_t list, size_t whose, uint64_t round, bool is_counted) {
    call(seats, who, CVM_COPY, NODE, list, 0, 0, CVM_OK);
    for (uint64_t place = LENGTH; place > 0; place--) {
        MUST(call(seats, who, CVM_RD, NODE, 0, 0, 0, CVM_NUMBER).number == number_of(whose, round, place - 1));
        if (place > 1) {
            cvm_value name = call(seats, who, CVM_GET, NODE, NODE, 0, 0, CVM_REF);
            MUST(name.thread == whose + 1);
            MUST(!is_counted || name.count == place - 1);
        }
    }
    call(seats, who, CVM_GET, NODE, NODE, 0, 0, CVM_NULL);
}

/* All that there is; where the heap was just renewed, also how the names are counted. */
static void see(cvm_seat *seats, uint64_t round, bool is_counted) {
    for (size_t who = 0; who < MUTATORS; who++) {
        cvm_state state;
        MUST(cvm_look(&seats[who], &state) == CVM_DONE && state.state == CVM_FREE);
        MUST(!is_counted || (state.made == LENGTH && state.left == UINT32_MAX - (uint64_t)LENGTH));
    }
    for (size_t who = 0; who < MUTATORS; who++) {
        see_list(seats, who, LIST, who, round, is_counted);
        call(seats, who, CVM_GET, SHARED, 0, (uint32_t)(1 - who), 0, CVM_REF);
        see_list(seats, who, SHARED, 1 - who, round, is_counted);
    }
}

static void end_all(cvm_seat *seats) {
    cvm_value value;
    for (size_t who = 0; who < MUTATORS; who++) {
        MUST(cvm_end(&seats[who]) == CVM_DONE);
        MUST(cvm_wait_working(&seats[who], seats + MUTATORS, WORKERS, &value) == CVM_ENDED);
    }
    for (size_t ended = 0; ended < WORKERS;) {
        ended = 0;
        for (size_t i = MUTATORS; i < SEATS; i++) { /* in turns, since the control may wait for a helper */
            ended += cvm_work(&seats[i], 100) == CVM_ENDED;
        }
    }
}

/* An object is pinned: the heap goes on with its old names, and the slot can be emptied. */
static void pinned(cvm_seat *seats, uint64_t round) {
    cvm_state before, after;
    uint64_t address = call(seats, 1, CVM_PIN, 3, LIST, 0, 0, CVM_AT).number;
    MUST(cvm_look(&seats[1], &before) == CVM_DONE);
    end_all(seats);
    MUST(cvm_renew(seats, SEATS) == CVM_PINNED);
    MUST(cvm_look(&seats[1], &after) == CVM_DONE && after.state == CVM_FREE && after.made == before.made && after.left == before.left);
    for (size_t i = MUTATORS; i < SEATS; i++) { /* its control has not ended, so its helpers have not */
        MUST(cvm_work(&seats[i], 1) != CVM_ENDED);
    }
    see(seats, round, false);
    MUST(call(seats, 1, CVM_PIN, 2, LIST, 0, 0, CVM_AT).number == address);
    call(seats, 1, CVM_UNPIN, 2, 0, 0, 0, CVM_OK);
    call(seats, 1, CVM_UNPIN, 3, 0, 0, 0, CVM_OK);
}

/* By threads that work: all have ended once they are joined. */
static void by_workers(cvm_seat *seats) {
    cvm_workers *workers = NULL;
    MUST(cvm_start_workers(seats + MUTATORS, WORKERS, &workers) == CVM_DONE);
    for (size_t who = 0; who < MUTATORS; who++) {
        MUST(cvm_finish(&seats[who]) == CVM_ENDED);
    }
    cvm_join_workers(workers);
}

/* Objects of random sizes, as many as there is room for. What fits in the order of addresses may not fit in that of names: then the heap goes on as well. */
static void crowded(uint64_t seed) {
    cvm_seat seats[SEATS] = {{0}};
    uint64_t random = seed, held = 0;
    uint32_t kept = 0, renewed = 0, too_small = 0;
    MUST(cvm_open(&SIZES, seats, SEATS) == CVM_DONE);
    for (int round = 0; round < 40; round++) {
        for (int i = 0; i < 60; i++) {
            uint64_t r = random_next(&random);
            size_t who = r % MUTATORS;
            uint32_t field = (uint32_t)(r >> 8) % 16;
            cvm_value value;
            MUST(cvm_begin(&seats[who], CVM_NEW, NODE, (uint32_t)(r >> 16) % 17, (uint32_t)(r >> 32) % 17, 0, 0) == CVM_DONE);
            cvm_status said = cvm_wait_working(&seats[who], seats + MUTATORS, WORKERS, &value);
            MUST(said == CVM_REF || said == CVM_FULL);
            if (said == CVM_REF) {
                call(seats, who, CVM_SET, 0, field, NODE, 0, CVM_OK);
                kept |= UINT32_C(1) << field;
            }
            call(seats, who, CVM_DROP, NODE, 0, 0, 0, CVM_OK);
        }
        held = 0;
        for (uint32_t field = 0; field < 16; field++) {
            held += kept >> field & 1;
        }
        end_all(seats);
        cvm_status said = cvm_renew(seats, SEATS);
        MUST(said == CVM_DONE || said == CVM_TOO_SMALL);
        renewed += said == CVM_DONE;
        too_small += said == CVM_TOO_SMALL;
        cvm_state first, second;
        MUST(cvm_look(&seats[0], &first) == CVM_DONE && cvm_look(&seats[1], &second) == CVM_DONE);
        MUST(said != CVM_DONE || first.made + second.made == held);
        for (uint32_t field = 0; field < 16; field++) {
            call(seats, 0, CVM_GET, NODE, 0, field, 0, (kept >> field & 1) != 0 ? CVM_REF : CVM_NULL);
        }
    }
    for (size_t i = 0; i < SEATS; i++) {
        MUST(cvm_close(&seats[i]) == CVM_DONE);
    }
    printf("renewal: of objects of random sizes %u times renewed, %u times too small\n", renewed, too_small);
}

int main(void) {
    cvm_seat seats[SEATS] = {{0}};
    enum { ROUNDS = 30 };
    MUST(cvm_open(&SIZES, seats, SEATS) == CVM_DONE);
    for (uint64_t round = 1; round <= ROUNDS; round++) {
        for (size_t who = 0; who < MUTATORS; who++) {
            make_list(seats, who, round);
            call(seats, who, CVM_SET, 0, (uint32_t)who, LIST, 0, CVM_OK);
        }
        if (round % 5 == 0) {
            pinned(seats, round);
        }
        for (size_t who = 0; who < MUTATORS; who++) {
            call(seats, who, CVM_DROP, SHARED, 0, 0, 0, CVM_OK);
        }
        if (round % 2 == 0) {
            by_workers(seats);
        } else {
            end_all(seats);
        }
        MUST(cvm_renew(seats, SEATS) == CVM_DONE);
        see(seats, round, true);
    }
    end_all(seats);
    MUST(cvm_close_all(seats, SEATS) == CVM_DONE);
    printf("renewal: %d times, with the lists as they were and names from 1\n", (int)ROUNDS);
    for (uint64_t seed = 1; seed <= 3; seed++) {
        crowded(seed);
    }
    return 0;
}
