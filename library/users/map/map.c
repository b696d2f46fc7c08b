#include "map.h"

/* The roots that the operations use. */
#define NODE (map->room)       /* the branch that the walk has come to */
#define CHILD (map->room + 1)  /* what is in its field */
#define LEAF (map->room + 2)   /* the new leaf */
#define BRANCH (map->room + 3) /* the new branch */
#define NOTHING (map->room + 4) /* null, always */

enum { BITS = 4, LEVELS = 16, WIDTH = 16 };

/*
 * Where a walk has ended: root NODE is a branch, and this of its fields leads to a leaf in root CHILD, or to nothing.
 */
typedef struct place {
    uint32_t level;
    uint32_t field;
    int has_leaf;
    uint64_t key;
} place;

/* A number for each key, each from one key only, whose bits all depend on all of the key's. */
static uint64_t hash(uint64_t key) {
    key = (key ^ (key >> 30)) * UINT64_C(0xbf58476d1ce4e5b9);
    key = (key ^ (key >> 27)) * UINT64_C(0x94d049bb133111eb);
    return key ^ (key >> 31);
}

static uint32_t field_at(uint64_t key, uint32_t level) {
    return (uint32_t)(hash(key) >> (level * BITS)) % WIDTH;
}

map_answer map_make(const map *map) {
    switch (cvm_new(map->seat, map->top, WIDTH, 0)) {
    case CVM_REF: return MAP_NONE;
    case CVM_FULL: return MAP_FULL;
    default: return MAP_BROKEN;
    }
}

/*
 * Looks at the field of the branch in root NODE at this level: MAP_FOUND where the walk ends here, MAP_NONE where a
 * branch follows, in root CHILD.
 */
static map_answer look(const map *map, uint64_t key, uint32_t level, place *place) {
    place->level = level;
    place->field = field_at(key, level);
    place->has_leaf = 0;
    cvm_status got = cvm_get(map->seat, CHILD, NODE, place->field);
    if (got == CVM_NULL) {
        return MAP_FOUND;
    }
    if (got != CVM_REF) {
        return MAP_BROKEN;
    }
    cvm_status kind = cvm_rd(map->seat, CHILD, 0, &place->key);
    place->has_leaf = kind == CVM_NUMBER;
    if (place->has_leaf) {
        return MAP_FOUND;
    }
    return kind == CVM_BAD ? MAP_NONE : MAP_BROKEN; /* a branch has no number */
}

/* Walks on from the branch in root NODE at this level. */
static map_answer walk_on(const map *map, uint64_t key, uint32_t level, place *place) {
    for (; level < LEVELS; level++) {
        map_answer looked = look(map, key, level, place);
        if (looked != MAP_NONE) {
            return looked;
        }
        cvm_copy(map->seat, NODE, CHILD);
    }
    return MAP_BROKEN;
}

static map_answer walk(const map *map, uint64_t key, place *place) {
    if (cvm_copy(map->seat, NODE, map->top) != CVM_OK) {
        return MAP_BROKEN;
    }
    return walk_on(map, key, 0, place);
}

static int is_at(const place *place, uint64_t key) {
    return place->has_leaf && place->key == key;
}

map_answer map_get(const map *map, uint64_t key, uint64_t *value) {
    place place;
    map_answer walked = walk(map, key, &place);
    if (walked != MAP_FOUND) {
        return walked;
    }
    if (!is_at(&place, key)) {
        return MAP_NONE;
    }
    return cvm_rd(map->seat, CHILD, 1, value) == CVM_NUMBER ? MAP_FOUND : MAP_BROKEN;
}

/*
 * Puts a new branch in the place of a leaf of another key, with that leaf below it: MAP_FOUND, also where somebody
 * else changed the field first.
 */
static map_answer part(const map *map, const place *place) {
    cvm_status made = cvm_new(map->seat, BRANCH, WIDTH, 0);
    if (made != CVM_REF) {
        return made == CVM_FULL ? MAP_FULL : MAP_BROKEN;
    }
    if (cvm_set(map->seat, BRANCH, field_at(place->key, place->level + 1), CHILD) != CVM_OK) {
        return MAP_BROKEN;
    }
    cvm_status said = cvm_cas(map->seat, NODE, place->field, CHILD, BRANCH);
    return said == CVM_YES || said == CVM_NO ? MAP_FOUND : MAP_BROKEN;
}

/*
 * Exchanges what is at the place, a leaf of this key or nothing, for root `by`: MAP_FOUND where it won, MAP_NONE
 * where somebody else has changed the field.
 */
static map_answer exchange(const map *map, const place *place, uint32_t by) {
    cvm_status said = cvm_cas(map->seat, NODE, place->field, place->has_leaf ? CHILD : NOTHING, by);
    if (said == CVM_YES) {
        return MAP_FOUND;
    }
    return said == CVM_NO ? MAP_NONE : MAP_BROKEN;
}

/* Gives root LEAF the value that is to follow the one at the place, which is answered in *before. */
static map_answer fill(const map *map, const place *place, uint64_t value, int adds, uint64_t *before) {
    *before = 0;
    if (place->has_leaf && cvm_rd(map->seat, CHILD, 1, before) != CVM_NUMBER) {
        return MAP_BROKEN;
    }
    return cvm_wr(map->seat, LEAF, 1, adds ? *before + value : value) == CVM_OK ? MAP_FOUND : MAP_BROKEN;
}

/* One try to put the leaf in root LEAF: MAP_FOUND where it is in the map, MAP_NONE where another try is to follow. */
static map_answer try_store(const map *map, const place *place, uint64_t key, uint64_t value, int adds, uint64_t *before) {
    if (place->has_leaf && place->key != key) {
        map_answer parted = part(map, place);
        return parted == MAP_FOUND ? MAP_NONE : parted;
    }
    map_answer filled = fill(map, place, value, adds, before);
    return filled == MAP_FOUND ? exchange(map, place, LEAF) : filled;
}

static map_answer make_leaf(const map *map, uint64_t key) {
    cvm_status made = cvm_new(map->seat, LEAF, 0, 2);
    if (made != CVM_REF) {
        return made == CVM_FULL ? MAP_FULL : MAP_BROKEN;
    }
    return cvm_wr(map->seat, LEAF, 0, key) == CVM_OK ? MAP_FOUND : MAP_BROKEN;
}

static map_answer store(const map *map, uint64_t key, uint64_t value, int adds, uint64_t *before) {
    place place;
    map_answer said = make_leaf(map, key);
    if (said == MAP_FOUND) {
        said = walk(map, key, &place);
    }
    while (said == MAP_FOUND) {
        said = try_store(map, &place, key, value, adds, before);
        if (said != MAP_NONE) {
            break;
        }
        said = walk_on(map, key, place.level, &place); /* the branch in root NODE is still in the trie */
    }
    if (said == MAP_FOUND && !place.has_leaf) {
        said = MAP_NONE;
    }
    return said;
}

map_answer map_put(const map *map, uint64_t key, uint64_t value, uint64_t *before) {
    return store(map, key, value, 0, before);
}

map_answer map_add(const map *map, uint64_t key, uint64_t more, uint64_t *before) {
    return store(map, key, more, 1, before);
}

map_answer map_remove(const map *map, uint64_t key, uint64_t *before) {
    place place;
    map_answer said = walk(map, key, &place);
    while (said == MAP_FOUND && is_at(&place, key)) {
        if (cvm_rd(map->seat, CHILD, 1, before) != CVM_NUMBER) {
            return MAP_BROKEN;
        }
        said = exchange(map, &place, NOTHING);
        if (said != MAP_NONE) {
            return said;
        }
        said = walk_on(map, key, place.level, &place);
    }
    return said == MAP_FOUND ? MAP_NONE : said;
}

/* Leads root NODE from the top along the fields of a path of branches. */
static int descend(const map *map, const uint32_t *path, uint32_t levels) {
    int went = cvm_copy(map->seat, NODE, map->top) == CVM_OK;
    for (uint32_t level = 0; went && level < levels; level++) {
        went = cvm_get(map->seat, NODE, NODE, path[level]) == CVM_REF;
    }
    return went;
}

/* Counts the leaves below the branch at the end of a path. */
static int count_below(const map *map, uint32_t *path, uint32_t level, uint64_t *count) {
    for (uint32_t field = 0; field < WIDTH; field++) {
        uint64_t key;
        if (!descend(map, path, level)) {
            return 0;
        }
        cvm_status got = cvm_get(map->seat, CHILD, NODE, field);
        if (got == CVM_NULL) {
            continue;
        }
        cvm_status kind = got == CVM_REF ? cvm_rd(map->seat, CHILD, 0, &key) : got;
        if (kind == CVM_NUMBER) {
            ++*count;
            continue;
        }
        path[level] = field;
        if (kind != CVM_BAD || level + 1 == LEVELS || !count_below(map, path, level + 1, count)) {
            return 0;
        }
    }
    return 1;
}

map_answer map_count(const map *map, uint64_t *count) {
    uint32_t path[LEVELS];
    *count = 0;
    return count_below(map, path, 0, count) ? MAP_FOUND : MAP_BROKEN;
}

void map_leave(const map *map) {
    cvm_drop(map->seat, map->top);
    for (uint32_t root = map->room; root < map->room + MAP_ROOM; root++) {
        cvm_drop(map->seat, root);
    }
}
