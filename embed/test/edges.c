#include "edges.h"

#include "depths.h"
#include "layout.h"
#include "lent.h"
#include "model.h"
#include "shapes.h"

#include <string.h>

/* The layout of what crosses, as the library has it. */
#define LAID(name, condition) typedef char name[(condition) ? 1 : -1]
LAID(shape_laid, sizeof(MdehShape) == 28 && offsetof(MdehShape, widths) == 4 && offsetof(MdehShape, capacity) == 20);
LAID(marks_laid, offsetof(MdehShape, signs) == 24);
LAID(key_laid, sizeof(MdehKey) == 16 && sizeof(MdehIndex) == 32);
LAID(query_laid, sizeof(MdehQuery) == 32 && offsetof(MdehQuery, values) == 16);
LAID(range_laid, sizeof(MdehRange) == 48 && offsetof(MdehRange, low) == 16 && offsetof(MdehRange, high) == 32);
LAID(make_laid, sizeof(MdehMakeResult) == 8 && offsetof(MdehMakeResult, attribute) == 4);
LAID(change_laid, sizeof(MdehChangeResult) == 12 && offsetof(MdehChangeResult, depth) == 8);
LAID(changed_laid, offsetof(MdehChangeResult, attribute) == 4 && offsetof(MdehLookupResult, attribute) == 4);
LAID(lookup_laid, sizeof(MdehLookupResult) == 20 && offsetof(MdehLookupResult, reads) == 12);
LAID(found_laid, offsetof(MdehLookupResult, payload) == 8 && offsetof(MdehLookupResult, depth) == 16);
LAID(listed_laid, sizeof(MdehQueryResult) == 32 && offsetof(MdehQueryResult, written) == 8);
LAID(counts_laid, offsetof(MdehQueryResult, total) == 16 && offsetof(MdehQueryResult, reads) == 24);
LAID(check_laid, sizeof(MdehCheckResult) == 12 && offsetof(MdehCheckResult, sound) == 8);
LAID(checked_laid, offsetof(MdehCheckResult, attribute) == 4 && offsetof(MdehQueryResult, attribute) == 4);
LAID(save_laid, sizeof(MdehSaveResult) == 16 && offsetof(MdehSaveResult, size) == 8);
LAID(address_laid, sizeof(MdehAddressResult) == 16 && offsetof(MdehAddressResult, address) == 8);
LAID(index_laid, sizeof(MdehIndexResult) == 40 && offsetof(MdehIndexResult, index) == 8);
LAID(saved_laid, offsetof(MdehSaveResult, attribute) == 4 && offsetof(MdehAddressResult, attribute) == 4);
LAID(indexed_laid, offsetof(MdehIndexResult, attribute) == 4);

static const MdehShape small = {2, {2, 2, 0, 0}, 2, 0};
static const MdehKey key = {{2, 1, 0, 0}};
static const MdehKey keys[4] = {{{0, 0, 0, 0}}, {{2, 0, 0, 0}}, {{3, 1, 0, 0}}, {{2, 1, 0, 0}}};
static const MdehQuery all = {{0, 0, 0, 0}, {0, 0, 0, 0}};
static const MdehRange any = {{0, 0, 0, 0}, {0, 0, 0, 0}, {0, 0, 0, 0}};

/* The memory of a store of the shape `small`. */
typedef struct {
    uint32_t state[MDEH_STATE_WORDS], directory[8];
    uint8_t pages[4 * MDEH_PAGE_BYTES(2)];
} Memory;

#define STORE(memory) LENT(memory, 8, sizeof(memory).pages)
#define LENT(memory, words, bytes) (memory).state, MDEH_STATE_WORDS, (memory).directory, words, (memory).pages, bytes

/* A store of so many of the keys, with the payloads 10, 11 and so on, whose Fresh is lent so many words and pages. */
static Memory filled(uint32_t count, size_t words, size_t pages) {
    Memory memory;
    uint32_t i;
    memset(&memory, 0, sizeof memory);
    HOLDS(made(mdeh_fresh(small, LENT(memory, words, pages * MDEH_PAGE_BYTES(2))), MDEH_ACCEPTED));
    for (i = 0; i < count; i++)
        HOLDS(mdeh_insert(STORE(memory), keys[i], 10 + i).number == MDEH_ACCEPTED);
    return memory;
}

void empty_slices(void) {
    uint32_t state[MDEH_STATE_WORDS], directory[8], gone;
    uint8_t pages[4 * MDEH_PAGE_BYTES(2)], out[MDEH_FILE_BYTES(1)];
    MdehQueryResult found;
    for (gone = 0; gone < 3; gone++) {
        uint32_t *s = gone == 0 ? NULL : state, *d = gone == 1 ? NULL : directory, number = gone == 0 ? 1 : 2;
        uint8_t *p = gone == 2 ? NULL : pages;
        size_t words = gone == 1 ? 0 : 8, bytes = gone == 2 ? 0 : sizeof pages, n = gone == 0 ? 0 : MDEH_STATE_WORDS;
        HOLDS(made(mdeh_fresh(small, s, n, d, words, p, bytes), MDEH_REFUSED_MEMORY));
        HOLDS(made(mdeh_fresh(small, state, MDEH_STATE_WORDS, directory, 8, pages, sizeof pages), MDEH_ACCEPTED));
        HOLDS(gave(mdeh_insert(s, n, d, words, p, bytes, key, 13), number, 0));
        HOLDS(gave(mdeh_delete(s, n, d, words, p, bytes, key), number, 0));
        HOLDS(missed(mdeh_lookup(s, n, d, words, p, bytes, key), number, 0));
        HOLDS(mdeh_check(s, n, d, words, p, bytes).number == number);
        HOLDS(mdeh_query(s, n, d, words, p, bytes, all, out, sizeof out).number == number);
        HOLDS(mdeh_range(s, n, d, words, p, bytes, any, out, sizeof out).number == number);
        HOLDS(mdeh_save(s, n, d, words, p, bytes, out, sizeof out).number == number);
        HOLDS(mdeh_save(state, MDEH_STATE_WORDS, directory, 8, pages, sizeof pages, out, sizeof out).size == 24);
        HOLDS(made(mdeh_load(out, 24, s, n, d, words, p, bytes), MDEH_REFUSED_MEMORY));
    }
    HOLDS(gave(mdeh_insert(state, MDEH_STATE_WORDS, directory, 8, pages, sizeof pages, key, 13), MDEH_ACCEPTED, 0));
    found = mdeh_query(state, MDEH_STATE_WORDS, directory, 8, pages, sizeof pages, all, NULL, 0);
    HOLDS(found.number == MDEH_ACCEPTED && found.written == 0 && found.total == 1 && found.reads == 1);
    found = mdeh_range(state, MDEH_STATE_WORDS, directory, 8, pages, sizeof pages, any, NULL, 0);
    HOLDS(found.number == MDEH_ACCEPTED && found.written == 0 && found.total == 1 && found.reads == 1);
    HOLDS(mdeh_save(state, MDEH_STATE_WORDS, directory, 8, pages, sizeof pages, NULL, 0).number == MDEH_REFUSED_MEMORY);
    HOLDS(made(mdeh_load(NULL, 0, state, MDEH_STATE_WORDS, directory, 8, pages, sizeof pages), MDEH_REFUSED_FILE));
}

/* Ranges over a store of the leaves 0 (one record), 100 (two), 101 (one) and 11 (none). */
static const struct {
    MdehRange range;
    uint32_t number, total, reads;
} ranged[] = {
    {{{0, 0, 0, 0}, {9, 3, 7, 4}, {4, 2, 6, 5}}, MDEH_ACCEPTED, 4, 3}, /* the ends of free attributes */
    {{{1, 1, 0, 0}, {0, 0, 0, 0}, {3, 3, 0, 0}}, MDEH_ACCEPTED, 4, 3}, /* whole intervals */
    {{{1, 0, 0, 0}, {2, 0, 0, 0}, {2, 0, 0, 0}}, MDEH_ACCEPTED, 2, 1}, /* equal ends */
    {{{1, 1, 0, 0}, {2, 1, 0, 0}, {2, 1, 0, 0}}, MDEH_ACCEPTED, 1, 1},
    {{{1, 0, 0, 0}, {1, 0, 0, 0}, {2, 0, 0, 0}}, MDEH_ACCEPTED, 2, 2}, /* leaf 0 is met at its edge */
    {{{0, 1, 0, 0}, {0, 1, 0, 0}, {0, 2, 0, 0}}, MDEH_ACCEPTED, 2, 3},
    {{{0, 1, 0, 0}, {0, 2, 0, 0}, {0, 3, 0, 0}}, MDEH_ACCEPTED, 0, 1}, /* leaf 11 is met too, and is empty */
    {{{1, 1, 0, 0}, {3, 2, 0, 0}, {3, 3, 0, 0}}, MDEH_ACCEPTED, 0, 0},
    {{{1, 0, 0, 0}, {3, 0, 0, 0}, {2, 0, 0, 0}}, MDEH_REFUSED_INTERVAL, 0, 0},
    {{{1, 1, 0, 0}, {0, 1, 0, 0}, {3, 0, 0, 0}}, MDEH_REFUSED_INTERVAL, 0, 0},
    {{{1, 0, 0, 0}, {0, 0, 0, 0}, {4, 0, 0, 0}}, MDEH_REFUSED_VALUE, 0, 0},
    {{{1, 0, 0, 0}, {4, 0, 0, 0}, {0, 0, 0, 0}}, MDEH_REFUSED_VALUE, 0, 0},
    {{{1, 1, 0, 0}, {3, 0, 0, 0}, {2, 4, 0, 0}}, MDEH_REFUSED_VALUE, 0, 0}, /* 3 in attribute 1, 10 in attribute 0 */
    {{{0, 0, 1, 0}, {0, 0, 0, 0}, {0, 0, 0, 0}}, MDEH_REFUSED_ATTRIBUTE, 0, 0},
    {{{0, 0, 0, 1}, {0, 0, 0, 2}, {0, 0, 0, 1}}, MDEH_REFUSED_ATTRIBUTE, 0, 0},
    {{{1, 1, 1, 0}, {4, 1, 9, 0}, {9, 0, 3, 0}}, MDEH_REFUSED_ATTRIBUTE, 0, 0}, /* 8 beside 3 and 10 */
};

void ranges(void) {
    static const uint32_t outputs[6] = {0, 11, 12, 23, 24, 60};
    Memory memory = filled(4, 8, 4);
    uint64_t seed = 1;
    uint32_t i, n;
    for (i = 0; i < sizeof ranged / sizeof *ranged; i++)
        for (n = 0; n < 6; n++) {
            uint32_t room = outputs[n] / MDEH_RECORD_BYTES, total = ranged[i].total;
            Lent out = lend_bytes(&seed, outputs[n]);
            MdehQueryResult found = mdeh_range(STORE(memory), ranged[i].range, bytes_of(&out), out.bytes);
            HOLDS(found.number == ranged[i].number && found.total == total && found.reads == ranged[i].reads);
            HOLDS(found.written == (total < room ? total : room));
            HOLDS(unchanged_from(&out, MDEH_RECORD_BYTES * (size_t)found.written));
            take_back(&out);
        }
}

/* Inserts into stores of some of the keys: the number for a payload of 0, and that for any other. */
static const struct {
    uint32_t stored;
    size_t words, pages;
    MdehKey key;
    uint32_t zero, other;
} inserted[] = {
    {0, 8, 4, {{2, 1, 0, 0}}, MDEH_REFUSED_PAYLOAD, MDEH_ACCEPTED},
    {3, 8, 4, {{2, 1, 0, 0}}, MDEH_REFUSED_PAYLOAD, MDEH_ACCEPTED},
    {4, 8, 4, {{2, 1, 0, 0}}, MDEH_REFUSED_PAYLOAD, MDEH_REFUSED_STORED},
    {3, 4, 4, {{2, 1, 0, 0}}, MDEH_REFUSED_PAYLOAD, MDEH_REFUSED_DEPTH},
    {3, 8, 2, {{2, 1, 0, 0}}, MDEH_REFUSED_PAYLOAD, MDEH_REFUSED_PAGES},
    {4, 8, 4, {{4, 1, 0, 0}}, MDEH_REFUSED_VALUE, MDEH_REFUSED_VALUE},
    {4, 8, 4, {{2, 1, 0, 1}}, MDEH_REFUSED_VALUE, MDEH_REFUSED_VALUE}, /* an unused value */
};

/* A payload of 0 on the store as it is, in slices that are too short, with words and pages that are not sound, and with
   a shape out of bounds: no byte is changed. */
static void payload_zero(size_t i) {
    size_t words = inserted[i].words, bytes = inserted[i].pages * MDEH_PAGE_BYTES(2);
    MdehKey added = inserted[i].key;
    Memory memory = filled(inserted[i].stored, words, inserted[i].pages), before = memory;
    HOLDS(gave(mdeh_insert(LENT(memory, words, bytes), added, 0), inserted[i].zero, 0));
    HOLDS(gave(mdeh_insert(LENT(memory, words - 1, bytes), added, 0), MDEH_REFUSED_MEMORY, 0));
    HOLDS(gave(mdeh_insert(LENT(memory, words, bytes - 1), added, 0), MDEH_REFUSED_MEMORY, 0));
    HOLDS(gave(mdeh_insert(memory.state, MDEH_STATE_WORDS - 1, memory.directory, words, memory.pages, bytes, added, 0),
               MDEH_REFUSED_SHAPE, 0));
    HOLDS(memcmp(&memory, &before, sizeof memory) == 0);
    memset(memory.directory, 0xff, sizeof memory.directory);
    memset(memory.pages, 0xff, sizeof memory.pages);
    before = memory;
    HOLDS(gave(mdeh_insert(LENT(memory, words, bytes), added, 0), inserted[i].zero, 0));
    HOLDS(memcmp(&memory, &before, sizeof memory) == 0);
    memory.state[0] = before.state[0] = 0;
    HOLDS(gave(mdeh_insert(LENT(memory, words, bytes), added, 0), MDEH_REFUSED_SHAPE, 0));
    HOLDS(memcmp(&memory, &before, sizeof memory) == 0);
}

void payloads(void) {
    static const uint32_t others[5] = {1, (uint32_t)1 << 8, (uint32_t)1 << 16, (uint32_t)1 << 24, UINT32_MAX};
    size_t i, n;
    for (i = 0; i < sizeof inserted / sizeof *inserted; i++) {
        payload_zero(i);
        for (n = 0; n < 5; n++) {
            Memory memory = filled(inserted[i].stored, inserted[i].words, inserted[i].pages);
            uint32_t number = mdeh_insert(STORE(memory), inserted[i].key, others[n]).number;
            HOLDS(number == inserted[i].other);
            HOLDS(number != MDEH_ACCEPTED || mdeh_lookup(STORE(memory), inserted[i].key).payload == others[n]);
        }
    }
}

/* The list of a store with payloads of 0 has the records of the four keys. */
static void compare_zeros(MdehQueryResult found, const uint8_t *out) {
    static const uint32_t listed[4] = {0, 0, 13, 12};
    size_t i;
    HOLDS(found.number == MDEH_ACCEPTED && found.written == 4 && found.total == 4 && found.reads == 3);
    for (i = 0; i < 4; i++)
        HOLDS(mdeh_record(small, out, i).payload == listed[i]);
}

void stored_zero(void) {
    Memory memory = filled(4, 8, 4);
    uint8_t out[4 * MDEH_RECORD_BYTES];
    uint32_t i;
    for (i = 0; i < 2; i++)
        memset(memory.pages + layout_record(memory.state, memory.directory, memory.pages, keys[i]) + 8, 0, 4);
    HOLDS(mdeh_check(STORE(memory)).sound == 1);
    compare_zeros(mdeh_query(STORE(memory), all, out, sizeof out), out);
    compare_zeros(mdeh_range(STORE(memory), any, out, sizeof out), out);
    for (i = 0; i < 4; i++) {
        MdehLookupResult found = mdeh_lookup(STORE(memory), keys[i]);
        HOLDS(found.number == MDEH_ACCEPTED && found.payload == (i < 2 ? 0 : 10 + i) && found.reads == 1);
        HOLDS(gave(mdeh_insert(STORE(memory), keys[i], 0), MDEH_REFUSED_PAYLOAD, 0));
        HOLDS(gave(mdeh_insert(STORE(memory), keys[i], 1), MDEH_REFUSED_STORED, 0));
        HOLDS(mdeh_delete(STORE(memory), keys[i]).number == MDEH_ACCEPTED);
        HOLDS(mdeh_lookup(STORE(memory), keys[i]).number == MDEH_REFUSED_ABSENT);
        HOLDS(mdeh_check(STORE(memory)).sound == 1);
    }
}

static int same(const MdehIndex *a, const MdehIndex *b) {
    return a->indices[0] == b->indices[0] && a->indices[1] == b->indices[1] && a->indices[2] == b->indices[2]
        && a->indices[3] == b->indices[3];
}

static void compare(MdehShape shape, MdehIndex index, uint64_t address) {
    MdehAddressResult to = mdeh_address(shape, index);
    MdehIndexResult from = mdeh_index(shape, address);
    HOLDS(to.number == MDEH_ACCEPTED && to.address == address);
    HOLDS(from.number == MDEH_ACCEPTED && same(&from.index, &index));
}

/* Vector n of those that the step of bit k and attribute z appends: ordered by index z, then by the others from
   attribute 0, the last fastest. Attribute j has 2^depth[j] indices. */
static MdehIndex appended(uint32_t k, uint32_t z, const uint32_t *depth, uint64_t n) {
    MdehIndex index;
    int j;
    for (j = 3; j >= 0; j--) {
        if ((uint32_t)j == z)
            continue;
        index.indices[j] = n & (((uint64_t)1 << depth[j]) - 1);
        n >>= depth[j];
    }
    index.indices[z] = ((uint64_t)1 << k) + n;
    return index;
}

/* The doubling array: the zero vector, and step by step as many vectors again. */
static void compare_shape(MdehShape shape) {
    static const MdehIndex zero = {{0, 0, 0, 0}};
    uint32_t depth[4] = {0, 0, 0, 0}, place;
    uint64_t size = 1, n;
    compare(shape, zero, 0);
    for (place = 0; place < 64; place++) {
        uint32_t k = place / 4, z = place % 4;
        if (z >= shape.attributes || k >= shape.widths[z])
            continue;
        for (n = 0; n < size; n++)
            compare(shape, appended(k, z, depth, n), size + n);
        depth[z]++;
        size *= 2;
    }
    HOLDS(mdeh_index(shape, size).number == MDEH_REFUSED_VALUE);
}

void addresses(void) {
    uint32_t n;
    for (n = 0; n < 4 * 256; n++) {
        MdehShape shape = {1 + n / 256, {1 + n % 4, 1 + n / 4 % 4, 1 + n / 16 % 4, 1 + n / 64 % 4}, 16, n * 0x9e3779b9};
        if (model_bits(&shape) <= 10)
            compare_shape(shape);
    }
}
