/*
 * A map from numbers to numbers in the heap, which threads read and change at once: a trie over the bits of a hash,
 * changed by compare-exchange alone.
 *
 * A branch is an object of 16 references: what the next four bits of the hash lead to. A leaf is an object of two
 * numbers, the key and the value, and never changes once it is in the trie: who puts another value exchanges the
 * leaf. An exchange that finds the leaf it expects cannot be deceived, since a leaf that a root names is not
 * collected, and so its words are not used again: no hazard pointers, no epochs. Branches stay, also where all below
 * them was taken out.
 *
 * Each operation takes effect at one call of the heap: at the load of the reference that decides it, or at the
 * exchange that it wins. It loops only where another thread has changed the same field in between.
 */
#ifndef MAP_H
#define MAP_H

#include "covremuj.h"

enum { MAP_ROOM = 5 };

/*
 * A thread's way to a map, which is in root `top`. The operations use MAP_ROOM roots from `room` on, which are null
 * before the first of them; behind an operation some still name what it held.
 */
typedef struct map {
    cvm_seat *seat;
    uint32_t top;
    uint32_t room;
} map;

typedef enum map_answer {
    MAP_NONE,  /* the key is not in the map, or was not */
    MAP_FOUND, /* the key is in the map, or was */
    MAP_FULL,  /* the heap has no room: the map is what it was */
    MAP_BROKEN /* a call was refused, or root `top` is no map */
} map_answer;

/*
 * Makes an empty map in root `top`: MAP_NONE, MAP_FULL or MAP_BROKEN. Other threads get it as any other object, by a
 * reference.
 */
map_answer map_make(const map *map);

/* The value of the key: MAP_FOUND, with *value; or MAP_NONE. */
map_answer map_get(const map *map, uint64_t key, uint64_t *value);

/* Gives the key this value: MAP_FOUND, with the value before in *before; MAP_NONE, where it had none; or MAP_FULL. */
map_answer map_put(const map *map, uint64_t key, uint64_t value, uint64_t *before);

/* Adds to the value of the key, from 0 where it has none: as map_put. */
map_answer map_add(const map *map, uint64_t key, uint64_t more, uint64_t *before);

/* Takes the key out: MAP_FOUND, with the value that it had in *before; or MAP_NONE. */
map_answer map_remove(const map *map, uint64_t key, uint64_t *before);

/*
 * Counts the keys, one branch after the other: MAP_FOUND, or MAP_BROKEN. Where others change the map meanwhile the
 * count is of no one time.
 */
map_answer map_count(const map *map, uint64_t *count);

/* Makes root `top` and the roots of the operations null. The map stays as long as others lead to it. */
void map_leave(const map *map);

#endif
