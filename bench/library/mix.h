/* Random numbers, told by a state alone, and the hash of the map. */
#ifndef MIX_H
#define MIX_H

#include <stdint.h>

static inline uint64_t mixed(uint64_t x) {
    x = (x ^ (x >> 30)) * UINT64_C(0xbf58476d1ce4e5b9);
    x = (x ^ (x >> 27)) * UINT64_C(0x94d049bb133111eb);
    return x ^ (x >> 31);
}

static inline uint64_t mix(uint64_t *state) {
    return mixed(*state += UINT64_C(0x9e3779b97f4a7c15));
}

#endif
