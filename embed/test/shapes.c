#include "shapes.h"

#include "depths.h"
#include "lent.h"

#include <string.h>

/* Attribute counts, and widths and capacities: in bounds, next to the bounds, and large ones, also with last bits in
   bounds. */
static const uint32_t counts[8] = {0, 1, 2, 3, 4, 5, 257, UINT32_MAX};
static const uint32_t numbers[6] = {0, 1, 16, 17, 257, UINT32_MAX};

/* The same for the bytes of a file. */
static const uint32_t byte_counts[8] = {0, 1, 2, 3, 4, 5, 128, 255};
static const uint32_t byte_numbers[6] = {0, 1, 16, 17, 128, 255};

/* All combinations of a count, four widths and a capacity. */
#define SHAPES (8u * 6 * 6 * 6 * 6 * 6)

/* One of them, with any marks. */
static MdehShape shape_at(uint32_t n, const uint32_t *attributes, const uint32_t *others) {
    MdehShape shape;
    uint32_t j;
    shape.signs = n * 0x9e3779b9;
    shape.attributes = attributes[n % 8];
    n /= 8;
    for (j = 0; j < 4; j++, n /= 6)
        shape.widths[j] = others[n % 6];
    shape.capacity = others[n];
    return shape;
}

static int within(uint32_t number, uint32_t most) {
    return 1 <= number && number <= most;
}

/* What is amiss, from the last condition to the first: the first one that holds is written last. */
static MdehMakeResult amiss(const MdehShape *shape) {
    MdehMakeResult found = {MDEH_ACCEPTED, 0};
    uint32_t j;
    if (!within(shape->capacity, 16))
        found.number = 15;
    for (j = 4; j-- > 0;)
        if (j < shape->attributes && !within(shape->widths[j], 16)) {
            found.number = 14;
            found.attribute = j;
        }
    if (!within(shape->attributes, 4)) {
        found.number = 1;
        found.attribute = 0;
    }
    return found;
}

/* The memory of a store with one directory word and one page, and words and bytes behind that no call may change. */
typedef struct {
    uint32_t state[MDEH_STATE_WORDS + 1], directory[2];
    uint8_t pages[MDEH_PAGE_BYTES(16) + 2];
} Memory;

static Memory memory, before;

/* How many state words, directory words and page bytes are lent: enough, or too few of one kind or of all. */
typedef struct {
    size_t state, words, bytes;
} Lengths;

#define KINDS 6

static Lengths lengths(const MdehShape *shape, int kind) {
    Lengths lent = {MDEH_STATE_WORDS, 1, MDEH_PAGE_BYTES(16)};
    if (within(shape->capacity, 16))
        lent.bytes = MDEH_PAGE_BYTES(shape->capacity);
    if (kind == 1 || kind == 3)
        lent.words = 0;
    if (kind == 2)
        lent.bytes--;
    if (kind == 3)
        lent.bytes = 0;
    if (kind == 4)
        lent.state--;
    if (kind == 5)
        lent.state = 0;
    return lent;
}

#define LENT(lent) memory.state, (lent).state, memory.directory, (lent).words, memory.pages, (lent).bytes

static int unchanged(void) {
    return memcmp(&memory, &before, sizeof memory) == 0;
}

/* ---- Fresh */

/* A store that was made has the shape, but for what is past its attributes, and is sound. */
static void compare_made(const MdehShape *shape, Lengths lent) {
    MdehShape held = mdeh_shape(memory.state);
    MdehCheckResult check = mdeh_check(LENT(lent));
    uint32_t j;
    HOLDS(held.attributes == shape->attributes && held.capacity == shape->capacity);
    for (j = 0; j < 4; j++)
        HOLDS(held.widths[j] == (j < shape->attributes ? shape->widths[j] : 0));
    HOLDS(check.number == MDEH_ACCEPTED && check.attribute == 0 && check.sound == 1);
}

void shapes_made(void) {
    uint32_t n;
    int kind;
    memset(&before, 0x5a, sizeof before);
    for (n = 0; n < SHAPES; n++) {
        MdehShape shape = shape_at(n, counts, numbers);
        for (kind = 0; kind < KINDS; kind++) {
            Lengths lent = lengths(&shape, kind);
            MdehMakeResult wanted = amiss(&shape), found;
            if (wanted.number == MDEH_ACCEPTED && kind > 0)
                wanted.number = MDEH_REFUSED_MEMORY;
            memory = before;
            found = mdeh_fresh(shape, LENT(lent));
            HOLDS(found.number == wanted.number && found.attribute == wanted.attribute);
            if (wanted.number != MDEH_ACCEPTED)
                HOLDS(unchanged());
            else
                compare_made(&shape, lent);
        }
    }
}

/* ---- states */

/* What the calls on a state are given: where they are refused for shape or memory, nothing of it is looked at. */
typedef struct {
    MdehKey key;
    uint32_t payload;
    MdehQuery query;
    MdehRange range;
} Given;

static const Given good = {{{0, 0, 0, 0}}, 7, {{0, 0, 0, 0}, {0, 0, 0, 0}}, {{0, 0, 0, 0}, {0, 0, 0, 0}, {0, 0, 0, 0}}};
static const Given bad = {
    {{-1, INT32_MIN, 65536, 1}}, 0, {{1, 1, 1, 1}, {-1, -1, -1, -1}}, {{1, 1, 1, 1}, {9, 9, 9, 9}, {-1, -1, -1, -1}}};

/* All calls on the store are refused so, with zeros beside, and change nothing. */
static void compare_refused(Lengths lent, const Given *given, MdehMakeResult wanted) {
    uint8_t out[40], clear[40];
    MdehChangeResult change;
    MdehLookupResult looked;
    MdehQueryResult listed;
    MdehCheckResult check;
    MdehSaveResult saved;
    memset(out, 0xa5, sizeof out);
    memset(clear, 0xa5, sizeof clear);
    change = mdeh_insert(LENT(lent), given->key, given->payload);
    HOLDS(change.number == wanted.number && change.attribute == wanted.attribute && change.depth == 0);
    change = mdeh_delete(LENT(lent), given->key);
    HOLDS(change.number == wanted.number && change.attribute == wanted.attribute && change.depth == 0);
    looked = mdeh_lookup(LENT(lent), given->key);
    HOLDS(looked.number == wanted.number && looked.attribute == wanted.attribute);
    HOLDS(looked.payload == 0 && looked.reads == 0 && looked.depth == 0);
    listed = mdeh_query(LENT(lent), given->query, out, sizeof out);
    HOLDS(listed.number == wanted.number && listed.attribute == wanted.attribute);
    HOLDS(listed.written == 0 && listed.total == 0 && listed.reads == 0);
    listed = mdeh_range(LENT(lent), given->range, out, sizeof out);
    HOLDS(listed.number == wanted.number && listed.attribute == wanted.attribute);
    HOLDS(listed.written == 0 && listed.total == 0 && listed.reads == 0);
    check = mdeh_check(LENT(lent));
    HOLDS(check.number == wanted.number && check.attribute == wanted.attribute && check.sound == 0);
    saved = mdeh_save(LENT(lent), out, sizeof out);
    HOLDS(saved.number == wanted.number && saved.attribute == wanted.attribute && saved.size == 0);
    HOLDS(unchanged() && memcmp(out, clear, sizeof out) == 0);
}

/* All calls on a store without records, whose widths past its attributes are any. */
static void compare_accepted(Lengths lent) {
    uint8_t out[40];
    MdehQueryResult listed = mdeh_query(LENT(lent), good.query, out, sizeof out);
    MdehCheckResult check = mdeh_check(LENT(lent));
    MdehSaveResult saved = mdeh_save(LENT(lent), out, sizeof out);
    HOLDS(listed.number == MDEH_ACCEPTED && listed.attribute == 0 && listed.total == 0);
    listed = mdeh_range(LENT(lent), good.range, out, sizeof out);
    HOLDS(listed.number == MDEH_ACCEPTED && listed.attribute == 0 && listed.total == 0);
    HOLDS(check.number == MDEH_ACCEPTED && check.attribute == 0 && check.sound == 1);
    HOLDS(saved.number == MDEH_ACCEPTED && saved.attribute == 0 && saved.size == 24);
    HOLDS(missed(mdeh_lookup(LENT(lent), good.key), MDEH_REFUSED_ABSENT, 0) && unchanged());
    HOLDS(gave(mdeh_insert(LENT(lent), good.key, good.payload), MDEH_ACCEPTED, 0));
    HOLDS(memcmp(memory.state, before.state, 4 * 6) == 0);
    HOLDS(gave(mdeh_delete(LENT(lent), good.key), MDEH_ACCEPTED, 0));
}

void shapes_of_states(void) {
    static const MdehShape least = {1, {1, 0, 0, 0}, 1, 0};
    static const MdehMakeResult short_state = {MDEH_REFUSED_SHAPE, 0};
    Memory fresh;
    uint32_t n;
    int kind;
    memset(&memory, 0x5a, sizeof memory);
    HOLDS(made(mdeh_fresh(least, LENT(lengths(&least, 0))), MDEH_ACCEPTED));
    fresh = memory;
    for (n = 0; n < SHAPES; n++) {
        MdehShape shape = shape_at(n, counts, numbers);
        memory = fresh;
        memory.state[0] = shape.attributes;
        memcpy(memory.state + 1, shape.widths, sizeof shape.widths);
        memory.state[5] = shape.capacity;
        memory.state[MDEH_STATE_WORDS - 1] = shape.signs;
        before = memory;
        for (kind = KINDS; kind-- > 0;) {
            MdehMakeResult wanted = amiss(&shape);
            Lengths lent = lengths(&shape, kind);
            if (wanted.number == MDEH_ACCEPTED && kind > 0)
                wanted.number = MDEH_REFUSED_MEMORY;
            if (lent.state < MDEH_STATE_WORDS)
                wanted = short_state;
            if (wanted.number == MDEH_ACCEPTED) {
                compare_accepted(lent);
            } else {
                compare_refused(lent, &good, wanted);
                compare_refused(lent, &bad, wanted);
            }
        }
    }
}

/* ---- files */

/* The 24 bytes of a file without records: the shape with these marks and this last byte, and the letters or others. */
static void put_file(uint8_t *file, const MdehShape *shape, uint8_t marks, uint8_t last, const char *letters) {
    uint32_t j;
    memset(file, 0, 24);
    file[0] = (uint8_t)shape->attributes;
    for (j = 0; j < 4; j++)
        file[1 + j] = (uint8_t)shape->widths[j];
    file[5] = (uint8_t)shape->capacity;
    file[6] = marks;
    file[7] = last;
    memcpy(file + 8, letters, 4);
    file[12] = file[16] = 24;
}

/* Whether an unused width or a mark without an attribute is not 0. */
static int is_stray(const MdehShape *shape, uint8_t marks) {
    uint32_t j;
    for (j = shape->attributes; j < 4; j++)
        if (shape->widths[j] != 0)
            return 1;
    return shape->attributes < 8 && marks >> shape->attributes != 0;
}

void shapes_of_files(void) {
    uint8_t file[24], marks[3] = {0, 1, 0x80};
    uint32_t n;
    int turn, kind;
    memset(&before, 0x5a, sizeof before);
    memory = before;
    for (n = 0; n < SHAPES; n++) {
        MdehShape shape = shape_at(n, byte_counts, byte_numbers);
        /* a broken trailer, a last byte that is not 0, and marks */
        for (turn = 0; turn < 12; turn++) {
            int broken = turn % 2, last = turn / 2 % 2;
            put_file(file, &shape, marks[turn / 4], (uint8_t)last, broken ? "MDEh" : "MDEH");
            for (kind = 0; kind < KINDS; kind++) {
                Lengths lent = lengths(&shape, kind);
                MdehMakeResult wanted = amiss(&shape), found;
                if (wanted.number == MDEH_ACCEPTED && (last || is_stray(&shape, marks[turn / 4])))
                    wanted.number = MDEH_REFUSED_CONTENT;
                if (wanted.number == MDEH_ACCEPTED && kind > 0)
                    wanted.number = MDEH_REFUSED_MEMORY;
                if (broken) {
                    wanted.number = MDEH_REFUSED_FILE;
                    wanted.attribute = 0;
                }
                found = mdeh_load(file, sizeof file, LENT(lent));
                HOLDS(found.number == wanted.number && found.attribute == wanted.attribute);
                if (wanted.number != MDEH_ACCEPTED) {
                    HOLDS(unchanged());
                } else {
                    compare_made(&shape, lent);
                    memory = before;
                }
            }
        }
    }
}

/* ---- the address map */

void shapes_of_addresses(void) {
    static const MdehIndex zero = {{0, 0, 0, 0}}, huge = {{UINT64_MAX, UINT64_MAX, UINT64_MAX, UINT64_MAX}};
    uint32_t n, turn;
    for (n = 0; n < SHAPES; n++) {
        MdehShape shape = shape_at(n, counts, numbers);
        for (turn = 0; turn < 2; turn++) {
            MdehMakeResult wanted = amiss(&shape);
            MdehAddressResult address = mdeh_address(shape, turn ? huge : zero);
            MdehIndexResult index = mdeh_index(shape, turn ? UINT64_MAX : 0);
            int all = wanted.number == MDEH_ACCEPTED && shape.attributes == 4 && shape.widths[0] == 16
                && shape.widths[1] == 16 && shape.widths[2] == 16 && shape.widths[3] == 16;
            if (wanted.number == MDEH_ACCEPTED && turn)
                wanted.number = MDEH_REFUSED_VALUE;
            HOLDS(address.number == wanted.number && address.attribute == wanted.attribute && address.address == 0);
            /* every address of 64 bits is one of the widest shape */
            if (all && turn) {
                HOLDS(index.number == MDEH_ACCEPTED && index.attribute == 0);
                continue;
            }
            HOLDS(index.number == wanted.number && index.attribute == wanted.attribute);
            HOLDS(memcmp(&index.index, &zero, sizeof zero) == 0);
        }
    }
}

/* ---- words */

void shape_reasons(void) {
    static const char *const widths[4] = {
        "the width of attribute 0 is outside 1 to 16", "the width of attribute 1 is outside 1 to 16",
        "the width of attribute 2 is outside 1 to 16", "the width of attribute 3 is outside 1 to 16"};
    uint32_t number, attribute;
    HOLDS(strcmp(mdeh_reason(MDEH_REFUSED_WIDTH), "the width of an attribute is outside 1 to 16") == 0);
    HOLDS(strcmp(mdeh_reason(MDEH_REFUSED_CAPACITY), "the page capacity is outside 1 to 16") == 0);
    for (number = 0; number < 20; number++)
        for (attribute = 0; attribute < 6; attribute++) {
            int named = number == 14 && attribute < 4;
            const char *wanted = named ? widths[attribute] : mdeh_reason(number);
            HOLDS(strcmp(mdeh_reason_of(number, attribute), wanted) == 0);
        }
    HOLDS(strcmp(mdeh_reason(16), "no number of this library") == 0);
}
