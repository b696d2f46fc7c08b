/*
 * Symbols, which hold the globals. Fields 0 to 14 of the hub lead to chains of symbols, one for each remainder of the hash of
 * the name. A new symbol is put before its chain by compare-exchange, so all threads see one symbol of a name.
 */
#include "lisp.h"

#include <string.h>

/* A name as the words of a string. */
typedef struct name {
    uint64_t words[CHUNK_WORDS];
    uint64_t length, hash;
} name;

static name name_of(const char *bytes, uint64_t length) {
    name made = {{0}, length, 1469598103934665603u};
    for (uint64_t i = 0; i < length; i++) {
        unsigned char byte = (unsigned char)bytes[i];
        made.words[i / 8] |= (uint64_t)byte << (i % 8 * 8);
        made.hash = (made.hash ^ byte) * 1099511628211u;
    }
    return made;
}

/* Whether the string in Z is that name. */
static bool is_name(machine *m, const name *sought) {
    if (word_of(m, Z) != word(STRING, (int64_t)sought->length)) {
        return false;
    }
    for (uint32_t i = 0; i * 8 < sought->length; i++) {
        uint64_t found = 0;
        memory_rd(m->seat, Z, i + 1, &found);
        if (found != sought->words[i]) {
            return false;
        }
    }
    return true;
}

/* Whether the symbol in X is of that name. Uses Z. */
static bool is_symbol_of(machine *m, const name *sought) {
    uint64_t hash = 0;
    memory_rd(m->seat, X, SYMBOL_HASH, &hash);
    return hash == sought->hash && memory_get(m->seat, Z, X, SYMBOL_NAME) && is_name(m, sought);
}

/* Looks through the chain of a bucket for it, into X; false: it is not there, and the chain began with Y, or with null. */
static bool find_symbol(machine *m, uint32_t bucket, const name *sought) {
    bool some = memory_get(m->seat, X, HUB, bucket);
    memory_copy(m->seat, Y, X);
    while (some) {
        if (is_symbol_of(m, sought)) {
            return true;
        }
        some = memory_get(m->seat, X, X, SYMBOL_NEXT);
    }
    return false;
}

/* A symbol that no chain has yet, in dst. Uses Y, Z. */
static bool make_symbol(machine *m, root dst, const char *bytes, const name *of) {
    if (!make_string(m, X, bytes, of->length) || !make_object(m, dst, 3, 2)) {
        return false;
    }
    memory_wr(m->seat, dst, 0, word(SYMBOL, 0));
    memory_wr(m->seat, dst, SYMBOL_HASH, of->hash);
    return memory_set(m->seat, dst, SYMBOL_NAME, X);
}

bool intern(machine *m, root dst, const char *bytes, uint64_t length) {
    if (length == 0 || length > CHUNK_BYTES) {
        return fail(m, "a name has 1 to 120 bytes", NIL);
    }
    name sought = name_of(bytes, length);
    uint32_t bucket = (uint32_t)(sought.hash % BUCKETS);
    bool made = false;
    while (!find_symbol(m, bucket, &sought)) {
        if (!made && !make_symbol(m, dst, bytes, &sought)) {
            return false;
        }
        if (!made) {
            made = true;
            continue; /* making it took time and Y: look again */
        }
        memory_set(m->seat, dst, SYMBOL_NEXT, Y);
        if (memory_cas(m->seat, HUB, bucket, Y, dst)) {
            return true;
        }
    }
    memory_copy(m->seat, dst, X);
    return true;
}
