#include "signs.h"

#include "depths.h"
#include "lent.h"
#include "model.h"
#include "shapes.h"

#include <string.h>

/* The memory of a store, for pages of up to three records. */
typedef struct {
    uint32_t state[MDEH_STATE_WORDS], directory[64];
    uint8_t pages[24 * MDEH_PAGE_BYTES(3)];
} Memory;

#define STORE(memory) (memory)->state, MDEH_STATE_WORDS, (memory)->directory, 64, (memory)->pages, sizeof(memory)->pages

/* A drive's number and its position offset. */
static const MdehShape drives = {2, {6, 10, 0, 0}, 3, MDEH_SIGNED(1)};
static const MdehQuery all = {{0, 0, 0, 0}, {0, 0, 0, 0}};

static void fresh(Memory *memory, MdehShape shape) {
    memset(memory, 0x5a, sizeof *memory);
    HOLDS(made(mdeh_fresh(shape, STORE(memory)), MDEH_ACCEPTED));
}

/* ---- bounds */

/* The numbers of all calls that take this number as the value of the only attribute. */
static void compare_value(MdehShape shape, int32_t value, uint32_t wanted) {
    MdehKey key = {{0, 0, 0, 0}};
    MdehQuery query = {{1, 0, 0, 0}, {0, INT32_MIN, INT32_MAX, -1}};
    MdehRange low = {{1, 0, 0, 0}, {0, INT32_MAX, -1, 1}, {0, INT32_MIN, -2, 0}}, high = low;
    Memory memory;
    uint8_t out[MDEH_RECORD_BYTES];
    key.values[0] = query.values[0] = low.low[0] = high.high[0] = value;
    low.high[0] = model_greatest(&shape, 0);
    high.low[0] = model_least(&shape, 0);
    fresh(&memory, shape);
    HOLDS(missed(mdeh_lookup(STORE(&memory), key), wanted ? wanted : MDEH_REFUSED_ABSENT, 0));
    HOLDS(gave(mdeh_insert(STORE(&memory), key, 7), wanted, 0));
    HOLDS(mdeh_lookup(STORE(&memory), key).number == wanted);
    HOLDS(mdeh_query(STORE(&memory), query, out, sizeof out).number == wanted);
    HOLDS(wanted || mdeh_record(shape, out, 0).values[0] == value);
    HOLDS(mdeh_range(STORE(&memory), low, out, sizeof out).number == wanted);
    HOLDS(mdeh_range(STORE(&memory), high, out, sizeof out).number == wanted);
    HOLDS(mdeh_check(STORE(&memory)).sound == 1);
    HOLDS(gave(mdeh_delete(STORE(&memory), key), wanted, 0));
}

void signed_bounds(void) {
    static const uint32_t widths[5] = {1, 2, 10, 15, 16};
    static const int32_t far[4] = {INT32_MIN, INT32_MAX, -((int32_t)1 << 16), (int32_t)1 << 16};
    uint32_t i, n;
    for (i = 0; i < 10; i++) {
        MdehShape shape = {1, {0, 9, 9, 9}, 2, i % 2 ? UINT32_MAX : UINT32_MAX - 1};
        int32_t least, greatest;
        shape.widths[0] = widths[i / 2];
        least = model_least(&shape, 0);
        greatest = model_greatest(&shape, 0);
        compare_value(shape, least, MDEH_ACCEPTED);
        compare_value(shape, greatest, MDEH_ACCEPTED);
        compare_value(shape, 0, MDEH_ACCEPTED);
        compare_value(shape, -1, i % 2 ? MDEH_ACCEPTED : MDEH_REFUSED_VALUE);
        compare_value(shape, least - 1, MDEH_REFUSED_VALUE);
        compare_value(shape, greatest + 1, MDEH_REFUSED_VALUE);
        for (n = 0; n < 4; n++)
            compare_value(shape, far[n], MDEH_REFUSED_VALUE);
    }
}

/* ---- order */

/* Ranges of the offsets -512, -2, -1, 0, 1 and 511. */
static const struct {
    int32_t low, high;
    uint32_t number, total;
} ranged[] = {
    {-512, 511, MDEH_ACCEPTED, 6},
    {-2, 1, MDEH_ACCEPTED, 4},
    {-1, 0, MDEH_ACCEPTED, 2},
    {-511, -2, MDEH_ACCEPTED, 1},
    {2, 511, MDEH_ACCEPTED, 1},
    {0, -1, MDEH_REFUSED_INTERVAL, 0},
    {511, -512, MDEH_REFUSED_INTERVAL, 0},
    {-513, 511, MDEH_REFUSED_VALUE, 0},
    {-512, 512, MDEH_REFUSED_VALUE, 0},
    {512, -512, MDEH_REFUSED_VALUE, 0}, /* 3 beside 10 */
    {0, -513, MDEH_REFUSED_VALUE, 0},
};

void signed_order(void) {
    static const int32_t inserted[6] = {1, -1, 511, -2, 0, -512}, listed[6] = {-512, -2, -1, 0, 1, 511};
    uint8_t out[6 * MDEH_RECORD_BYTES];
    MdehKey key = {{5, 0, 0, 0}};
    MdehQuery query = {{1, 0, 0, 0}, {5, 0, 0, 0}};
    MdehRange range = {{0, 1, 0, 0}, {0, 0, 0, 0}, {0, 0, 0, 0}};
    Memory memory;
    size_t i;
    fresh(&memory, drives);
    for (i = 0; i < 6; i++) {
        key.values[1] = inserted[i];
        HOLDS(mdeh_insert(STORE(&memory), key, (uint32_t)(inserted[i] + 1000)).number == MDEH_ACCEPTED);
    }
    HOLDS(mdeh_query(STORE(&memory), query, out, sizeof out).written == 6);
    for (i = 0; i < 6; i++) {
        MdehRecord record = mdeh_record(mdeh_shape(memory.state), out, i);
        HOLDS(record.values[0] == 5 && record.values[1] == listed[i] && record.values[2] == 0);
        HOLDS(record.payload == (uint32_t)(listed[i] + 1000));
    }
    HOLDS(memcmp(out, "\5\0\0\376\0\0\0\0", 8) == 0); /* -512 is 0xfe00 */
    for (i = 0; i < sizeof ranged / sizeof *ranged; i++) {
        MdehQueryResult found;
        range.low[1] = ranged[i].low;
        range.high[1] = ranged[i].high;
        found = mdeh_range(STORE(&memory), range, out, sizeof out);
        HOLDS(found.number == ranged[i].number && found.total == ranged[i].total);
    }
    key.values[1] = -513; /* 3 beside 11, 11 beside 4 */
    HOLDS(gave(mdeh_insert(STORE(&memory), key, 0), MDEH_REFUSED_VALUE, 0));
    key.values[1] = -512;
    HOLDS(gave(mdeh_insert(STORE(&memory), key, 0), MDEH_REFUSED_PAYLOAD, 0));
    HOLDS(gave(mdeh_insert(STORE(&memory), key, 1), MDEH_REFUSED_STORED, 0));
}

void signed_records(void) {
    uint8_t bytes[2 * MDEH_RECORD_BYTES];
    uint32_t d, j, signs;
    memset(bytes, 0xff, MDEH_RECORD_BYTES);
    for (j = 0; j < 8; j++)
        bytes[MDEH_RECORD_BYTES + j] = j % 2 ? 0x80 : 0x7f; /* 0x807f */
    memset(bytes + MDEH_RECORD_BYTES + 8, 0x81, 4);
    for (d = 1; d <= 4; d++)
        for (signs = 0; signs < 32; signs++) {
            MdehShape shape = {0, {3, 3, 3, 3}, 1, 0};
            MdehRecord first, second;
            shape.attributes = d;
            shape.signs = signs;
            first = mdeh_record(shape, bytes, 0);
            second = mdeh_record(shape, bytes, 1);
            for (j = 0; j < 4; j++) {
                int marked = j < d && (signs >> j & 1);
                HOLDS(first.values[j] == (marked ? -1 : 65535));
                HOLDS(second.values[j] == (marked ? 0x807f - 0x10000 : 0x807f));
            }
            HOLDS(first.payload == UINT32_MAX && second.payload == 0x81818181);
        }
}

/* ---- twins */

/* A store with marks, and that of its encodings without them. */
typedef struct {
    Memory marked, plain;
    MdehShape shape;
    uint64_t seed;
} Twins;

/* The encodings of four values. */
static void encode(const MdehShape *shape, const int32_t *values, int32_t *encodings) {
    uint32_t j;
    for (j = 0; j < 4; j++)
        encodings[j] = (int32_t)model_encoding(shape, j, values[j]);
}

/* Whether records are the same, but that the fields of the first hold values where those of the second hold their
   encodings. */
static int same_records(const MdehShape *shape, const uint8_t *marked, const uint8_t *plain, size_t count) {
    size_t i;
    uint32_t j;
    for (i = 0; i < count; i++, marked += MDEH_RECORD_BYTES, plain += MDEH_RECORD_BYTES) {
        for (j = 0; j < 4; j++) {
            uint32_t value = marked[2 * j] | (uint32_t)marked[2 * j + 1] << 8;
            uint32_t encoding = plain[2 * j] | (uint32_t)plain[2 * j + 1] << 8;
            if (((value - (uint32_t)model_least(shape, j)) & 0xffff) != encoding)
                return 0;
        }
        if (memcmp(marked + 8, plain + 8, 4) != 0)
            return 0;
    }
    return 1;
}

/* The two stores: states, words in use, pages. */
static void compare_twins(const Twins *twins) {
    const Memory *marked = &twins->marked, *plain = &twins->plain;
    size_t size = MDEH_PAGE_BYTES(twins->shape.capacity), g;
    HOLDS(memcmp(marked->state, plain->state, 4 * (MDEH_STATE_WORDS - 1)) == 0);
    HOLDS(marked->state[MDEH_STATE_WORDS - 1] == twins->shape.signs && plain->state[MDEH_STATE_WORDS - 1] == 0);
    HOLDS(memcmp(marked->directory, plain->directory, (size_t)4 << marked->state[8]) == 0);
    for (g = 0; g < marked->state[6]; g++) {
        const uint8_t *one = marked->pages + g * size, *other = plain->pages + g * size;
        HOLDS(one[0] == other[0] && one[1] == other[1]);
        HOLDS(same_records(&twins->shape, one + 2, other + 2, one[0]));
    }
    HOLDS(mdeh_check(STORE(marked)).sound == 1 && mdeh_check(STORE(plain)).sound == 1);
}

/* The results of two calls that list records, and their outputs. */
static void compare_lists(const Twins *twins, MdehQueryResult marked, MdehQueryResult plain, const uint8_t *one,
                          const uint8_t *other) {
    HOLDS(marked.number == plain.number && marked.written == plain.written);
    HOLDS(marked.total == plain.total && marked.reads == plain.reads);
    HOLDS(same_records(&twins->shape, one, other, (size_t)marked.written));
}

static MdehKey random_key(Twins *twins) {
    MdehKey key;
    uint32_t j;
    for (j = 0; j < 4; j++) {
        uint32_t values = j < twins->shape.attributes ? (uint32_t)1 << twins->shape.widths[j] : 1;
        key.values[j] = model_value(&twins->shape, j, below(&twins->seed, values));
    }
    return key;
}

/* One call of each kind on both. */
static void twin_calls(Twins *twins) {
    MdehKey key = random_key(twins), other = random_key(twins), code;
    MdehQuery query, plain_query;
    MdehRange range, plain_range;
    MdehLookupResult found, plain_found;
    MdehChangeResult change, plain_change;
    uint8_t out[5 * MDEH_RECORD_BYTES], plain_out[5 * MDEH_RECORD_BYTES];
    uint32_t j, payload = below(&twins->seed, 9);
    for (j = 0; j < 4; j++) {
        query.given[j] = range.given[j] = j < twins->shape.attributes && below(&twins->seed, 2);
        query.values[j] = key.values[j];
        range.low[j] = key.values[j] < other.values[j] ? key.values[j] : other.values[j];
        range.high[j] = key.values[j] < other.values[j] ? other.values[j] : key.values[j];
    }
    plain_query = query;
    plain_range = range;
    encode(&twins->shape, key.values, code.values);
    encode(&twins->shape, query.values, plain_query.values);
    encode(&twins->shape, range.low, plain_range.low);
    encode(&twins->shape, range.high, plain_range.high);
    compare_lists(twins, mdeh_query(STORE(&twins->marked), query, out, sizeof out),
                  mdeh_query(STORE(&twins->plain), plain_query, plain_out, sizeof plain_out), out, plain_out);
    compare_lists(twins, mdeh_range(STORE(&twins->marked), range, out, sizeof out),
                  mdeh_range(STORE(&twins->plain), plain_range, plain_out, sizeof plain_out), out, plain_out);
    found = mdeh_lookup(STORE(&twins->marked), key);
    plain_found = mdeh_lookup(STORE(&twins->plain), code);
    HOLDS(memcmp(&found, &plain_found, sizeof found) == 0);
    if (below(&twins->seed, 3)) {
        change = mdeh_insert(STORE(&twins->marked), key, payload);
        plain_change = mdeh_insert(STORE(&twins->plain), code, payload);
    } else {
        change = mdeh_delete(STORE(&twins->marked), key);
        plain_change = mdeh_delete(STORE(&twins->plain), code);
    }
    HOLDS(gave(change, plain_change.number, plain_change.depth));
    compare_twins(twins);
}

void signed_twins(void) {
    Twins twins;
    uint32_t i, j, turn;
    twins.seed = 1;
    for (i = 0; i < 200; i++) {
        MdehShape plain;
        twins.shape.attributes = 1 + i % 4;
        for (j = 0; j < 4; j++)
            twins.shape.widths[j] = 1 + below(&twins.seed, i % 8 ? 3 : 16);
        twins.shape.capacity = 1 + below(&twins.seed, 3);
        twins.shape.signs = 1 + below(&twins.seed, ((uint32_t)1 << twins.shape.attributes) - 1);
        plain = twins.shape;
        plain.signs = 0;
        fresh(&twins.marked, twins.shape);
        fresh(&twins.plain, plain);
        for (turn = 0; turn < 100; turn++)
            twin_calls(&twins);
    }
}

/* ---- marks past the attribute count */

void marks_past(void) {
    uint32_t d, bit;
    for (d = 1; d <= 4; d++)
        for (bit = d; bit < 32; bit++) {
            MdehShape shape = {0, {3, 3, 3, 3}, 1, 1};
            MdehKey key = {{-4, 0, 0, 0}}, wrong = key;
            MdehQueryResult found;
            Memory memory, other;
            shape.attributes = d;
            fresh(&other, shape);
            shape.signs |= (uint32_t)1 << bit;
            fresh(&memory, shape);
            HOLDS(memcmp(&memory, &other, sizeof memory) == 0);
            memory.state[MDEH_STATE_WORDS - 1] = shape.signs;
            if (d < 4)
                wrong.values[d] = -1;
            else
                wrong.values[3] = 8;
            HOLDS(gave(mdeh_insert(STORE(&memory), wrong, 7), MDEH_REFUSED_VALUE, 0));
            HOLDS(gave(mdeh_insert(STORE(&memory), key, 7), MDEH_ACCEPTED, 0));
            HOLDS(gave(mdeh_insert(STORE(&other), key, 7), MDEH_ACCEPTED, 0));
            HOLDS(memory.state[MDEH_STATE_WORDS - 1] == shape.signs && other.state[MDEH_STATE_WORDS - 1] == 1);
            other.state[MDEH_STATE_WORDS - 1] = shape.signs;
            HOLDS(memcmp(&memory, &other, sizeof memory) == 0);
            HOLDS(mdeh_check(STORE(&memory)).sound == 1);
            found = mdeh_query(STORE(&memory), all, NULL, 0);
            HOLDS(found.number == MDEH_ACCEPTED && found.total == 1 && found.reads == 1);
            HOLDS(gave(mdeh_delete(STORE(&memory), key), MDEH_ACCEPTED, 0));
            HOLDS(memory.state[MDEH_STATE_WORDS - 1] == shape.signs);
        }
}

/* ---- fields */

void signed_fields(void) {
    static const MdehKey key = {{5, -3, 0, 0}};
    uint8_t out[MDEH_RECORD_BYTES];
    Memory memory;
    uint32_t field;
    fresh(&memory, drives);
    HOLDS(gave(mdeh_insert(STORE(&memory), key, 7), MDEH_ACCEPTED, 0));
    for (field = 0; field < 0x10000; field++) {
        int sound = field < 0x200 || field >= 0xfe00;
        MdehQueryResult found;
        size_t g;
        for (g = 0; memory.pages[g * MDEH_PAGE_BYTES(3)] == 0; g++)
            continue;
        memory.pages[g * MDEH_PAGE_BYTES(3) + 4] = (uint8_t)field;
        memory.pages[g * MDEH_PAGE_BYTES(3) + 5] = (uint8_t)(field >> 8);
        HOLDS(mdeh_check(STORE(&memory)).sound == (uint32_t)sound);
        found = mdeh_query(STORE(&memory), all, out, sizeof out);
        HOLDS(found.number == (sound ? MDEH_ACCEPTED : MDEH_REFUSED_UNSOUND) && found.written == (uint64_t)sound);
        if (sound)
            HOLDS(mdeh_record(drives, out, 0).values[1] == (field < 0x200 ? (int32_t)field : (int32_t)field - 0x10000));
    }
}
