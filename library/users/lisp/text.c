/*
 * Strings. A string of up to 120 bytes is one object: its word, and 8 bytes in each number behind it, the first byte lowest. A
 * longer one leads to the string of the bytes behind its first 120.
 */
#include "lisp.h"

static uint64_t in_chunk(uint64_t length) {
    return length < CHUNK_BYTES ? length : CHUNK_BYTES;
}

/* One chunk of a string of `length` bytes, whose rest is in dst. */
static bool make_chunk(machine *m, root dst, uint64_t length) {
    uint64_t words = (in_chunk(length) + 7) / 8;
    if (!make_object(m, Z, length > CHUNK_BYTES, (uint32_t)words + 1)) {
        return false;
    }
    memory_wr(m->seat, Z, 0, word(STRING, (int64_t)length));
    if (length > CHUNK_BYTES) {
        memory_set(m->seat, Z, 0, dst);
    }
    memory_copy(m->seat, dst, Z);
    return true;
}

bool make_blank(machine *m, root dst, uint64_t length) {
    uint64_t last = length == 0 ? 0 : (length - 1) / CHUNK_BYTES;
    for (uint64_t chunk = last + 1; chunk > 0; chunk--) {
        if (!make_chunk(m, dst, length - (chunk - 1) * CHUNK_BYTES)) {
            return false;
        }
    }
    return true;
}

cursor begin_cursor(machine *m, root string) {
    cursor at = {.chunk = string, .at = 0, .word = 0, .left = (uint64_t)rest_of(word_of(m, string))};
    return at;
}

/* Goes on to the next chunk where this one is done. */
static void into_chunk(machine *m, cursor *at) {
    if (at->at == CHUNK_BYTES) {
        memory_get(m->seat, at->chunk, at->chunk, 0);
        at->at = 0;
    }
}

int next_byte(machine *m, cursor *at) {
    if (at->left == 0) {
        return -1;
    }
    into_chunk(m, at);
    if (at->at % 8 == 0) {
        memory_rd(m->seat, at->chunk, at->at / 8 + 1, &at->word);
    }
    int byte = (int)(at->word >> (at->at % 8 * 8) & 255);
    at->at++;
    at->left--;
    return byte;
}

void put_byte(machine *m, cursor *at, unsigned char byte) {
    into_chunk(m, at);
    at->word |= (uint64_t)byte << (at->at % 8 * 8);
    at->at++;
    at->left--;
    if (at->at % 8 == 0 || at->left == 0) {
        memory_wr(m->seat, at->chunk, (at->at - 1) / 8 + 1, at->word);
        at->word = 0;
    }
}

void copy_bytes(machine *m, cursor *to, cursor *from, uint64_t count) {
    for (uint64_t i = 0; i < count; i++) {
        put_byte(m, to, (unsigned char)next_byte(m, from));
    }
}

bool make_string(machine *m, root dst, const char *bytes, uint64_t length) {
    if (!make_blank(m, dst, length)) {
        return false;
    }
    memory_copy(m->seat, Y, dst);
    cursor to = begin_cursor(m, Y);
    for (uint64_t i = 0; i < length; i++) {
        put_byte(m, &to, (unsigned char)bytes[i]);
    }
    return true;
}

uint64_t short_bytes(machine *m, root string, char bytes[CHUNK_BYTES]) {
    cursor from = begin_cursor(m, string);
    uint64_t count = 0;
    for (int byte = next_byte(m, &from); byte >= 0 && count < CHUNK_BYTES; byte = next_byte(m, &from)) {
        bytes[count++] = (char)byte;
    }
    return count;
}
