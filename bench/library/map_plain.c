/*
 * The map program over malloc and free, or, where it is compiled with -DBOEHM, over Boehm's collector: the same trie,
 * with pointers.
 *
 * usage: map_plain KEYS OPERATIONS THREADS       writes the keys that are left, those that ought to be, and the
 * seconds
 *
 * Over Boehm's collector the trie is changed by compare-exchange, as over the heap. Over malloc a leaf that one
 * thread frees may be read by another, so there one lock is held in each operation; a trie without a lock would need
 * hazard pointers or epochs.
 */
#define _POSIX_C_SOURCE 200809L
#ifdef BOEHM
#define GC_THREADS
#include <gc.h>
#define TAKE(size) GC_MALLOC(size)
#define GIVE(it) ((void)(it))
#define LOCK() ((void)0)
#define UNLOCK() ((void)0)
#else
#define TAKE(size) calloc(1, size)
#define GIVE(it) free(it)
#define LOCK() pthread_mutex_lock(&lock)
#define UNLOCK() pthread_mutex_unlock(&lock)
#endif
#include "mix.h"

#include <pthread.h>
#include <stdatomic.h>
#include <stdio.h>
#include <stdlib.h>
#include <time.h>

/* A branch, or a leaf. */
typedef struct node {
    int is_leaf;
    uint64_t key, value;
    _Atomic(struct node *) fields[];
} node;

#ifndef BOEHM
static pthread_mutex_t lock = PTHREAD_MUTEX_INITIALIZER;
#endif
static node *top;
static uint64_t keys, operations;
static atomic_llong balance;

static node *make(int is_leaf, uint64_t key, uint64_t value) {
    node *made = TAKE(sizeof *made + (is_leaf ? 0 : 16 * sizeof made->fields[0]));
    if (made == NULL) {
        exit(1);
    }
    made->is_leaf = is_leaf;
    made->key = key;
    made->value = value;
    return made;
}

static _Atomic(node *) *field_of(node *branch, uint64_t key, int level) {
    return &branch->fields[(mixed(key) >> (4 * level)) % 16];
}

/* Walks to where the key is, or would be. */
static _Atomic(node *) *walk(uint64_t key, int *level, node **found) {
    node *branch = top;
    for (*level = 0;; ++*level) {
        _Atomic(node *) *field = field_of(branch, key, *level);
        *found = atomic_load(field);
        if (*found == NULL || (*found)->is_leaf) {
            return field;
        }
        branch = *found;
    }
}

static int put(uint64_t key, uint64_t value) {
    node *leaf = make(1, key, value), *found;
    int level;
    for (;;) {
        _Atomic(node *) *field = walk(key, &level, &found);
        if (found == NULL || found->key == key) {
            node *expect = found;
            if (atomic_compare_exchange_strong(field, &expect, leaf)) {
                if (found != NULL) {
                    GIVE(found);
                }
                return found == NULL;
            }
        } else {
            node *branch = make(0, 0, 0), *expect = found;
            atomic_store(field_of(branch, found->key, level + 1), found);
            if (!atomic_compare_exchange_strong(field, &expect, branch)) {
                GIVE(branch);
            }
        }
    }
}

static int take(uint64_t key) {
    node *found;
    int level;
    for (;;) {
        _Atomic(node *) *field = walk(key, &level, &found);
        if (found == NULL || found->key != key) {
            return 0;
        }
        node *expect = found;
        if (atomic_compare_exchange_strong(field, &expect, NULL)) {
            GIVE(found);
            return 1;
        }
    }
}

static int get(uint64_t key, uint64_t *value) {
    node *found;
    int level;
    walk(key, &level, &found);
    if (found == NULL || found->key != key) {
        return 0;
    }
    *value = found->value;
    return 1;
}

static void operate(uint64_t random, long long *mine, uint64_t *value) {
    uint64_t key = random % keys;
    LOCK();
    switch (random >> 62) {
    case 0: *mine += put(key, random); break;
    case 1: *mine -= take(key); break;
    default: get(key, value);
    }
    UNLOCK();
}

static void *live(void *context) {
    uint64_t state = (uint64_t)(size_t)context, value = 0;
    long long mine = 0;
    for (uint64_t i = 0; i < operations; i++) {
        operate(mix(&state), &mine, &value);
    }
    atomic_fetch_add(&balance, mine);
    return NULL;
}

static long long count_below(const node *node) {
    long long count = 0;
    for (int i = 0; i < 16; i++) {
        struct node *found = atomic_load(&node->fields[i]);
        if (found != NULL) {
            count += found->is_leaf ? 1 : count_below(found);
        }
    }
    return count;
}

static double now(void) {
    struct timespec time;
    clock_gettime(CLOCK_MONOTONIC, &time);
    return (double)time.tv_sec + (double)time.tv_nsec * 1e-9;
}

int main(int count, char **words) {
    pthread_t threads[64];
    if (count != 4) {
        return 2;
    }
    keys = strtoull(words[1], NULL, 10);
    operations = strtoull(words[2], NULL, 10);
    size_t many = strtoull(words[3], NULL, 10);
#ifdef BOEHM
    GC_INIT();
#endif
    top = make(0, 0, 0);
    double start = now();
    for (size_t i = 0; i < many; i++) {
        pthread_create(&threads[i], NULL, live, (void *)i);
    }
    for (size_t i = 0; i < many; i++) {
        pthread_join(threads[i], NULL);
    }
    double seconds = now() - start;
    printf("%lld %lld %.6f %.6f\n", count_below(top), (long long)atomic_load(&balance), seconds, (double)clock() / CLOCKS_PER_SEC);
    return 0;
}
