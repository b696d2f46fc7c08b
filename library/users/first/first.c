/*
 * A first program: two threads, each of which makes a list of a thousand numbers, again and again, on a heap that has
 * room for a few of them. What is let go is collected while both go on.
 */
#include <covremuj.h>

#include <pthread.h>
#include <stdio.h>

enum { LIST = 1, NODE = 2 }; /* two of the thread's 16 roots, by names of our own */

/* Makes a list of the numbers from 1 to `length` in root LIST, the last one first. */
static int make_list(cvm_seat *me, uint64_t length) {
    cvm_drop(me, LIST);
    for (uint64_t i = 1; i <= length; i++) {
        if (cvm_new(me, NODE, 1, 1) != CVM_REF) { /* an object of one reference and one number */
            return 0;
        }
        cvm_wr(me, NODE, 0, i);
        cvm_set(me, NODE, 0, LIST);
        cvm_copy(me, LIST, NODE);
    }
    return 1;
}

/* The sum of a list, which is let go on the way. */
static uint64_t sum_list(cvm_seat *me) {
    uint64_t sum = 0, number = 0;
    while (cvm_rd(me, LIST, 0, &number) == CVM_NUMBER) { /* CVM_BAD where root LIST is null */
        sum += number;
        cvm_get(me, LIST, LIST, 0);
    }
    return sum;
}

static void *live(void *context) {
    cvm_seat me = {0};
    cvm_move(&me, context); /* on this thread's own stack, where no other thread's seat lies beside it */
    for (int time = 0; time < 20; time++) {
        if (!make_list(&me, 1000) || sum_list(&me) != 500500) {
            puts("wrong");
        }
    }
    cvm_finish(&me);
    cvm_move(context, &me);
    return NULL;
}

int main(void) {
    cvm_config config = {.regions = 16, .region_words = 1024, .mutators = 2, .helpers = 1, .reserve = 2};
    cvm_seat seats[4] = {{0}};
    cvm_workers *workers = NULL;
    pthread_t threads[2];
    cvm_status said = cvm_open(&config, seats, 4);
    if (said == CVM_DONE) {
        said = cvm_start_workers(seats + 2, 2, &workers); /* the helper and the control */
    }
    if (said != CVM_DONE) {
        printf("the heap does not open: %s\n", cvm_status_name(said));
        return 1;
    }
    for (int i = 0; i < 2; i++) {
        pthread_create(&threads[i], NULL, live, &seats[i]);
    }
    for (int i = 0; i < 2; i++) {
        pthread_join(threads[i], NULL);
    }
    cvm_join_workers(workers);
    for (int i = 0; i < 4; i++) {
        cvm_close(&seats[i]); /* the last one frees the heap */
    }
    puts("40 lists of 1000 numbers");
    return 0;
}
