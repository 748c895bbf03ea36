#include "depths.h"

#include "layout.h"
#include "lent.h"
#include "model.h"
#include "shapes.h"

#include <string.h>

/* The memory of a store with a directory that may be as deep as any, and up to six pages. */
typedef struct {
    uint32_t state[MDEH_STATE_WORDS], directory[MDEH_MOST_WORDS];
    uint8_t pages[6 * MDEH_PAGE_BYTES(16)];
} Memory;

#define STORE(memory) LENT(memory, MDEH_MOST_WORDS)
#define LENT(memory, words) \
    (memory)->state, MDEH_STATE_WORDS, (memory)->directory, words, (memory)->pages, sizeof(memory)->pages

/* Any split bits, the first one 1. */
#define BITS UINT32_C(0xb2d36c50)

/* The key of 32 split bits, the first one highest, in a shape of two attributes of 16 bits. */
static MdehKey key_of(uint32_t bits) {
    MdehKey key = {{0, 0, 0, 0}};
    uint32_t t;
    for (t = 0; t < 32; t++)
        key.values[t % 2] |= (int32_t)(bits >> (31 - t) & 1) << (15 - t / 2);
    return key;
}

/* The first m of BITS, the next one as given, and any number below 16 in the last bits. */
static uint32_t beginning(uint32_t m, uint32_t next, uint32_t last) {
    return (m == 0 ? 0 : BITS >> (32 - m) << (32 - m)) | next << (31 - m) | last;
}

/* A store with so many records a page: a page full of keys that begin with 0, if there is an anchor, and one of keys
   that begin with the first m of BITS and a 0. All of these have the same leaf, of depth 0 or of depth 1. */
static void fill(Memory *memory, uint32_t capacity, uint32_t m, int anchor) {
    MdehShape shape = {2, {16, 16, 0, 0}, 0, 0};
    uint32_t i, depth = anchor ? 1 : 0;
    shape.capacity = capacity;
    HOLDS(made(mdeh_fresh(shape, STORE(memory)), MDEH_ACCEPTED));
    for (i = 0; anchor && i < capacity; i++)
        HOLDS(gave(mdeh_insert(STORE(memory), key_of(i), 1), MDEH_ACCEPTED, 0));
    for (i = 0; i < capacity; i++)
        HOLDS(gave(mdeh_insert(STORE(memory), key_of(beginning(m, 0, i)), 1), MDEH_ACCEPTED, depth));
}

/* The same with one key more, which differs from the others in split bit m first: its leaf and theirs have depth
   m + 1. */
static MdehKey divide(Memory *memory, uint32_t capacity, uint32_t m, int anchor) {
    MdehKey key = key_of(beginning(m, 1, 5));
    fill(memory, capacity, m, anchor);
    HOLDS(gave(mdeh_insert(STORE(memory), key, 7), MDEH_ACCEPTED, m + 1));
    return key;
}

/* Capacities, and all m with an anchor and without; an anchor needs a first bit that is 1. */
static void each_store(void (*compare)(Memory *memory, uint32_t capacity, uint32_t m, int anchor)) {
    static const uint32_t capacities[3] = {1, 2, 16};
    static Memory memory;
    uint32_t i, m;
    for (i = 0; i < 3; i++)
        for (m = 0; m < 12; m++) {
            compare(&memory, capacities[i], m, 0);
            if (m > 0)
                compare(&memory, capacities[i], m, 1);
        }
}

void depths_of_the_table(void) {
    static const MdehShape small = {2, {2, 2, 0, 0}, 2, 0};
    static const MdehKey keys[4] = {{{0, 0, 0, 0}}, {{2, 0, 0, 0}}, {{3, 1, 0, 0}}, {{2, 1, 0, 0}}};
    static const uint32_t inserted[4] = {0, 0, 1, 3}, stored[4] = {1, 3, 3, 3}, words[8] = {1, 3, 1, 2, 1, 1, 3, 2};
    static const struct {
        MdehKey key;
        uint32_t depth;
    } absent[] = {
        {{{1, 1, 0, 0}}, 1}, /* 0011 in leaf 0 */
        {{{3, 0, 0, 0}}, 3}, /* 1010 in leaf 101 */
        {{{3, 3, 0, 0}}, 2}, /* 1111 in leaf 11, which is empty */
        {{{2, 2, 0, 0}}, 2}, /* 1100 */
    };
    static Memory memory;
    uint32_t i;
    HOLDS(made(mdeh_fresh(small, STORE(&memory)), MDEH_ACCEPTED));
    for (i = 0; i < 4; i++)
        HOLDS(gave(mdeh_insert(STORE(&memory), keys[i], 10 + i), MDEH_ACCEPTED, inserted[i]));
    for (i = 0; i < 8; i++)
        HOLDS(memory.directory[i] >> 16 == words[i]);
    for (i = 0; i < 4; i++) {
        MdehLookupResult found = mdeh_lookup(STORE(&memory), keys[i]);
        HOLDS(found.number == MDEH_ACCEPTED && found.payload == 10 + i && found.reads == 1);
        HOLDS(found.depth == stored[i]);
        HOLDS(missed(mdeh_lookup(STORE(&memory), absent[i].key), MDEH_REFUSED_ABSENT, absent[i].depth));
        HOLDS(gave(mdeh_delete(STORE(&memory), absent[i].key), MDEH_REFUSED_ABSENT, absent[i].depth));
    }
    HOLDS(gave(mdeh_delete(STORE(&memory), keys[3]), MDEH_ACCEPTED, 1));
    for (i = 3; i-- > 0;)
        HOLDS(gave(mdeh_delete(STORE(&memory), keys[i]), MDEH_ACCEPTED, 0));
}

static void compare_divided(Memory *memory, uint32_t capacity, uint32_t m, int anchor) {
    MdehKey key = divide(memory, capacity, m, anchor);
    uint32_t i;
    HOLDS(mdeh_lookup(STORE(memory), key).depth == m + 1);
    for (i = 0; i < capacity; i++) {
        HOLDS(mdeh_lookup(STORE(memory), key_of(beginning(m, 0, i))).depth == m + 1);
        HOLDS(!anchor || mdeh_lookup(STORE(memory), key_of(i)).depth == 1);
    }
}

void divided_levels(void) {
    each_store(compare_divided);
}

static void compare_joined(Memory *memory, uint32_t capacity, uint32_t m, int anchor) {
    MdehKey key = divide(memory, capacity, m, anchor);
    uint32_t depth = anchor ? 1 : 0;
    HOLDS(gave(mdeh_delete(STORE(memory), key), MDEH_ACCEPTED, depth));
    HOLDS(gave(mdeh_delete(STORE(memory), key), MDEH_REFUSED_ABSENT, depth));
    HOLDS(mdeh_lookup(STORE(memory), key_of(beginning(m, 0, 0))).depth == depth);
    HOLDS(memory->state[8] == depth);
}

void joined_levels(void) {
    each_store(compare_joined);
}

/* An absent key: lookup and delete give the depth of its leaf. */
static void compare_absent(Memory *memory, uint32_t bits, uint32_t depth) {
    HOLDS(missed(mdeh_lookup(STORE(memory), key_of(bits)), MDEH_REFUSED_ABSENT, depth));
    HOLDS(gave(mdeh_delete(STORE(memory), key_of(bits)), MDEH_REFUSED_ABSENT, depth));
}

static void compare_beside(Memory *memory, uint32_t capacity, uint32_t m, int anchor) {
    uint32_t x;
    divide(memory, capacity, m, anchor);
    compare_absent(memory, beginning(m, 0, 0x100), m + 1);
    compare_absent(memory, beginning(m, 1, 0x100), m + 1);
    /* the leaves beside: the first x - 1 bits, and the next one changed; they are empty, but for that of the anchor */
    for (x = 1; x <= m; x++)
        compare_absent(memory, BITS ^ UINT32_C(1) << (32 - x), x);
}

void absent_keys(void) {
    each_store(compare_beside);
}

static void compare_empty(Memory *memory, uint32_t capacity, uint32_t m, int anchor) {
    MdehKey key = divide(memory, capacity, m, anchor);
    uint32_t i;
    HOLDS(mdeh_delete(STORE(memory), key).number == MDEH_ACCEPTED);
    for (i = 0; i < capacity; i++) {
        HOLDS(mdeh_delete(STORE(memory), key_of(beginning(m, 0, i))).number == MDEH_ACCEPTED);
        HOLDS(!anchor || mdeh_delete(STORE(memory), key_of(i)).number == MDEH_ACCEPTED);
    }
    compare_absent(memory, beginning(m, 0, 0), 0);
    compare_absent(memory, 3, 0);
    HOLDS(made(mdeh_fresh(mdeh_shape(memory->state), STORE(memory)), MDEH_ACCEPTED));
    compare_absent(memory, beginning(m, 1, 0), 0);
}

void empty_stores(void) {
    each_store(compare_empty);
}

/* All three calls with a key, lent so many directory words, give this number and no depth. */
static void compare_refused(Memory *memory, size_t words, MdehKey key, uint32_t number) {
    HOLDS(gave(mdeh_insert(LENT(memory, words), key, 1), number, 0));
    HOLDS(gave(mdeh_delete(LENT(memory, words), key), number, 0));
    HOLDS(missed(mdeh_lookup(LENT(memory, words), key), number, 0));
}

static void compare_numbers(Memory *memory, uint32_t capacity, uint32_t m, int anchor) {
    MdehKey key = divide(memory, capacity, m, anchor), wrong = key;
    uint32_t i, depth = m + 1;
    wrong.values[1] = 65536;
    compare_refused(memory, MDEH_MOST_WORDS - 1, key, MDEH_REFUSED_MEMORY);
    compare_refused(memory, MDEH_MOST_WORDS, wrong, MDEH_REFUSED_VALUE);
    HOLDS(gave(mdeh_insert(STORE(memory), key, 0), MDEH_REFUSED_PAYLOAD, 0));
    HOLDS(gave(mdeh_insert(STORE(memory), key, 1), MDEH_REFUSED_STORED, 0));
    /* with m = 11 the keys of the full leaf share their first L split bits */
    if (m == 11)
        HOLDS(gave(mdeh_insert(STORE(memory), key_of(beginning(m, 0, 0x100)), 1), MDEH_REFUSED_DEPTH, 0));
    /* P is as many pages as are in use */
    memory->state[6] = anchor ? 3 : 2;
    if (m > 1)
        HOLDS(gave(mdeh_insert(STORE(memory), key_of(BITS ^ UINT32_C(1) << (32 - m)), 1), MDEH_REFUSED_PAGES, 0));
    memory->state[0] = 5;
    compare_refused(memory, MDEH_MOST_WORDS, key, MDEH_REFUSED_SHAPE);
    memory->state[0] = 2;
    HOLDS(mdeh_lookup(STORE(memory), key).depth == depth);
    /* a page that the store does not have */
    for (i = 0; i < (uint32_t)1 << depth; i++)
        memory->directory[i] |= 0xffff;
    compare_refused(memory, MDEH_MOST_WORDS, key, MDEH_REFUSED_UNSOUND);
}

void numbers_without_depths(void) {
    each_store(compare_numbers);
}

/* Another depth in the only word of the key's leaf: lookup, delete and insert into it. */
static void compare_damaged(Memory *memory, uint32_t capacity, uint32_t m, int anchor) {
    MdehKey key = divide(memory, capacity, m, anchor), other = key_of(beginning(m, 1, 0x100));
    size_t place = layout_cell(memory->state, key);
    static Memory copy;
    uint32_t depth, turn;
    for (depth = 0; depth < 16; depth++) {
        MdehLookupResult found;
        memory->directory[place] = (memory->directory[place] & 0xffff) | depth << 16;
        found = mdeh_lookup(STORE(memory), key);
        HOLDS(depth == m + 1 ? found.number == MDEH_ACCEPTED : found.number != MDEH_REFUSED_ABSENT);
        HOLDS(found.depth == (found.number == MDEH_ACCEPTED ? depth : 0));
        found = mdeh_lookup(STORE(memory), other);
        HOLDS(depth == m + 1 ? found.number == MDEH_REFUSED_ABSENT : found.number != MDEH_ACCEPTED);
        HOLDS(found.depth == (found.number == MDEH_REFUSED_ABSENT ? depth : 0));
        for (turn = 0; turn < 3; turn++) {
            MdehKey changed = turn == 1 ? key : other;
            MdehChangeResult change;
            copy = *memory;
            change = turn == 0 ? mdeh_insert(STORE(&copy), changed, 8) : mdeh_delete(STORE(&copy), changed);
            HOLDS(change.depth == layout_depth(copy.state, copy.directory, changed, change.number));
        }
    }
}

void damaged_depths(void) {
    each_store(compare_damaged);
}
