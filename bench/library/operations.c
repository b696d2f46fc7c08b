/*
 * Operations a second of one command.
 *
 * usage: operations COMMAND THREADS MODE MILLISECONDS REGIONS WORDS
 *
 * COMMAND is one of those of covremuj.h, small. MODE is `idle`, where nobody asks for a collection, or `on`, where
 * one cycle follows the other: each thread asks for one after each 64 operations. It writes the operations a second
 * of all threads together. The objects on which a thread works are its own but for `shared`, where all exchange one
 * field of the hub.
 */
#define _POSIX_C_SOURCE 200809L
#include "common.h"

static atomic_int over;
static int is_on;
static cvm_status (*operation)(cvm_seat *, uint64_t);

static cvm_status op_new(cvm_seat *s, uint64_t i) { (void)i; return cvm_new(s, 5, 1, 1); }
static cvm_status op_get(cvm_seat *s, uint64_t i) { (void)i; return cvm_get(s, 3, 1, 0); }
static cvm_status op_set(cvm_seat *s, uint64_t i) { (void)i; return cvm_set(s, 1, 0, 2); }
static cvm_status op_cas(cvm_seat *s, uint64_t i) { (void)i; return cvm_cas(s, 1, 0, 2, 2); }
static cvm_status op_xchg(cvm_seat *s, uint64_t i) { (void)i; return cvm_xchg(s, 3, 1, 0, 2); }
static cvm_status op_rd(cvm_seat *s, uint64_t i) { (void)i; uint64_t n; return cvm_rd(s, 1, 0, &n); }
static cvm_status op_wr(cvm_seat *s, uint64_t i) { return cvm_wr(s, 1, 0, i); }
static cvm_status op_copy(cvm_seat *s, uint64_t i) { (void)i; return cvm_copy(s, 3, 1); }
static cvm_status op_drop(cvm_seat *s, uint64_t i) { (void)i; return cvm_drop(s, 4); }
static cvm_status op_same(cvm_seat *s, uint64_t i) { (void)i; return cvm_same(s, 1, 2); }
static cvm_status op_gc(cvm_seat *s, uint64_t i) { (void)i; return cvm_gc(s); }
static cvm_status op_shared(cvm_seat *s, uint64_t i) { (void)i; return cvm_xchg(s, 3, 0, 0, 2); }

static const struct {
    const char *name;
    cvm_status (*operation)(cvm_seat *, uint64_t);
} OPERATIONS[] = {
    {"new", op_new}, {"get", op_get}, {"set", op_set}, {"cas", op_cas}, {"xchg", op_xchg}, {"rd", op_rd},
    {"wr", op_wr}, {"copy", op_copy}, {"drop", op_drop}, {"same", op_same}, {"gc", op_gc}, {"shared", op_shared},
};

static void body(runner *me) {
    must(cvm_new(&me->seat, 1, 1, 1) == CVM_REF && cvm_new(&me->seat, 2, 1, 1) == CVM_REF && cvm_set(&me->seat, 1, 0, 2) == CVM_OK, "set-up");
    while (!atomic_load_explicit(&over, memory_order_relaxed)) {
        for (uint64_t i = 0; i < 64; i++) {
            cvm_status said = operation(&me->seat, i);
            must(cvm_is_reply(said) && said != CVM_BAD && said != CVM_FULL, "a reply");
        }
        me->count += 64;
        if (is_on) {
            cvm_gc(&me->seat);
        }
    }
}

static void *clock_out(void *context) {
    uint64_t millis = *(uint64_t *)context;
    struct timespec time = {(time_t)(millis / 1000), (long)(millis % 1000) * 1000000};
    nanosleep(&time, NULL);
    atomic_store(&over, 1);
    return NULL;
}

int main(int count, char **words) {
    static bench bench;
    pthread_t clock;
    if (count != 7) {
        return 2;
    }
    for (size_t i = 0; i < sizeof OPERATIONS / sizeof OPERATIONS[0]; i++) {
        if (strcmp(words[1], OPERATIONS[i].name) == 0) {
            operation = OPERATIONS[i].operation;
        }
    }
    must(operation != NULL, "a command of this name");
    is_on = strcmp(words[3], "on") == 0;
    uint64_t millis = number_word(words, 4), total = 0;
    double busy = 0;
    open_bench(&bench, number_word(words, 5), number_word(words, 6), number_word(words, 2), 0);
    pthread_create(&clock, NULL, clock_out, &millis);
    double seconds = run_bench(&bench, body);
    pthread_join(clock, NULL);
    for (size_t i = 0; i < bench.config.mutators; i++) {
        total += bench.runners[i].count;
        busy += bench.runners[i].busy;
    }
    printf("%.0f %.0f\n", (double)total / seconds, (double)total / busy);
    return 0;
}
