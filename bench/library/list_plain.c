/*
 * The list program over malloc and free, or, where it is compiled with -DBOEHM, over Boehm's collector.
 *
 * usage: list_plain LENGTH TIMES THREADS       writes the sum of all, the seconds, and those of processor time
 */
#define _POSIX_C_SOURCE 200809L
#ifdef BOEHM
#define GC_THREADS
#include <gc.h>
#define TAKE(size) GC_MALLOC(size)
#define GIVE(it) ((void)(it))
#else
#define TAKE(size) malloc(size)
#define GIVE(it) free(it)
#endif
#include <pthread.h>
#include <stdatomic.h>
#include <stdint.h>
#include <stdio.h>
#include <stdlib.h>
#include <time.h>

typedef struct node {
    struct node *next;
    uint64_t number;
} node;

static uint64_t length, times;
static atomic_ullong sum;

static double now(void) {
    struct timespec time;
    clock_gettime(CLOCK_MONOTONIC, &time);
    return (double)time.tv_sec + (double)time.tv_nsec * 1e-9;
}

static void *live(void *context) {
    uint64_t mine = 0;
    (void)context;
    for (uint64_t time = 0; time < times; time++) {
        node *list = NULL;
        for (uint64_t i = 1; i <= length; i++) {
            node *made = TAKE(sizeof *made);
            if (made == NULL) {
                exit(1);
            }
            made->number = i;
            made->next = list;
            list = made;
        }
        while (list != NULL) {
            node *next = list->next;
            mine += list->number;
            GIVE(list);
            list = next;
        }
    }
    atomic_fetch_add(&sum, mine);
    return NULL;
}

int main(int count, char **words) {
    pthread_t threads[64];
    if (count != 4) {
        return 2;
    }
    length = strtoull(words[1], NULL, 10);
    times = strtoull(words[2], NULL, 10);
    size_t many = strtoull(words[3], NULL, 10);
#ifdef BOEHM
    GC_INIT();
#endif
    double start = now();
    for (size_t i = 0; i < many; i++) {
        pthread_create(&threads[i], NULL, live, NULL);
    }
    for (size_t i = 0; i < many; i++) {
        pthread_join(threads[i], NULL);
    }
    printf("%llu %.6f %.6f\n", (unsigned long long)atomic_load(&sum), now() - start, (double)clock() / CLOCKS_PER_SEC);
    return 0;
}
