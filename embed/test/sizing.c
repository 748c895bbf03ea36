#include "sizing.h"

#include "depths.h"
#include "lent.h"
#include "model.h"
#include "shapes.h"

#include <stdio.h>
#include <string.h>

/* The three slices of a store. */
typedef struct {
    Lent state, directory, pages;
} Memory;

#define STORE(memory) \
    words_of(&(memory)->state), MDEH_STATE_WORDS, words_of(&(memory)->directory), (memory)->directory.bytes / 4, \
        bytes_of(&(memory)->pages), (memory)->pages.bytes

/* The random keys of a shape; none comes twice where it has up to 65,536. */
typedef struct {
    MdehShape shape;
    uint32_t bits, drawn, codes[MDEH_MOST_RECORDS];
    uint64_t seed;
} Keys;

/* How a fill ended: the first number but 0 and 4, the records stored, the pages that they took. */
typedef struct {
    uint32_t number, stored;
    size_t pages;
} Filled;

static Memory lend_store(uint64_t *seed, MdehShape shape, size_t words, size_t bytes) {
    Memory memory;
    memory.state = lend_words(seed, MDEH_STATE_WORDS);
    memory.directory = lend_words(seed, words);
    memory.pages = lend_bytes(seed, bytes);
    HOLDS(made(mdeh_fresh(shape, STORE(&memory)), MDEH_ACCEPTED));
    return memory;
}

static void take_store_back(Memory *memory) {
    take_back(&memory->state);
    take_back(&memory->directory);
    take_back(&memory->pages);
}

/* The key of a number below 2 to the sum of the widths. */
static MdehKey key_of(const MdehShape *shape, uint64_t code) {
    MdehKey key = {{0, 0, 0, 0}};
    uint32_t j;
    for (j = 0; j < shape->attributes; j++) {
        key.values[j] = model_value(shape, j, (uint32_t)(code & ((UINT32_C(1) << shape->widths[j]) - 1)));
        code >>= shape->widths[j];
    }
    return key;
}

static void draw_from(Keys *keys, MdehShape shape, uint64_t seed) {
    uint32_t i;
    keys->shape = shape;
    keys->bits = model_bits(&shape);
    keys->drawn = 0;
    keys->seed = first_seed = seed;
    for (i = 0; keys->bits <= 16 && i < UINT32_C(1) << keys->bits; i++)
        keys->codes[i] = i;
}

/* The next key: of few ones left, each alike. */
static MdehKey draw(Keys *keys) {
    uint32_t i, code;
    if (keys->bits > 16)
        return key_of(&keys->shape, number64(&keys->seed) >> (64 - keys->bits));
    i = keys->drawn + below(&keys->seed, (UINT32_C(1) << keys->bits) - keys->drawn);
    code = keys->codes[i];
    keys->codes[i] = keys->codes[keys->drawn++];
    return key_of(&keys->shape, code);
}

/* The pages of a store that hold records. */
static size_t used_pages(const Memory *memory, uint32_t capacity) {
    size_t page, used = 0, size = MDEH_PAGE_BYTES(capacity);
    for (page = 0; page < memory->pages.bytes / size; page++)
        used += bytes_of(&memory->pages)[page * size] != 0;
    return used;
}

/* Inserts keys into a fresh store in this memory until n are stored or one is refused. */
static Filled fill(Keys *keys, size_t words, size_t bytes, uint32_t n) {
    Filled filled = {MDEH_ACCEPTED, 0, 0};
    Memory memory = lend_store(&keys->seed, keys->shape, words, bytes);
    while (filled.stored < n && filled.number == MDEH_ACCEPTED) {
        uint32_t number = mdeh_insert(STORE(&memory), draw(keys), 1 + filled.stored).number;
        if (number == MDEH_ACCEPTED)
            filled.stored++;
        else if (number != MDEH_REFUSED_STORED)
            filled.number = number;
    }
    filled.pages = used_pages(&memory, keys->shape.capacity);
    HOLDS(mdeh_check(STORE(&memory)).sound == 1);
    HOLDS(unchanged_from(&memory.directory, memory.directory.bytes));
    HOLDS(unchanged_from(&memory.pages, memory.pages.bytes));
    take_store_back(&memory);
    return filled;
}

/* A shape in bounds, with narrow or with any widths, and any marks in one of two. */
static MdehShape random_shape(uint64_t *seed, uint32_t attributes, uint32_t capacity) {
    MdehShape shape;
    uint32_t j, most = below(seed, 2) ? 5 : 16;
    shape.attributes = attributes;
    for (j = 0; j < 4; j++)
        shape.widths[j] = 1 + below(seed, most);
    shape.capacity = capacity;
    shape.signs = below(seed, 2) ? (uint32_t)number64(seed) : 0;
    return shape;
}

void version_text(void) {
    char text[40];
    sprintf(text, "%d.%d.%d", MDEH_VERSION_MAJOR, MDEH_VERSION_MINOR, MDEH_VERSION_PATCH);
    HOLDS(strcmp(text, MDEH_VERSION) == 0);
    HOLDS(MDEH_MOST_PAGES == 4096 && MDEH_MOST_WORDS == 4096 && MDEH_MOST_RECORDS == 16 * MDEH_MOST_PAGES);
}

/* Shapes and counts, and the words, pages and holds that the formulas give for them by hand. */
static const struct {
    MdehShape shape;
    uint32_t records, words, pages, holds;
} rooms[] = {
    {{3, {7, 5, 9, 0}, 16, 0}, 0, 1, 1, 1},
    {{3, {7, 5, 9, 0}, 16, 0}, 1, 1, 1, 1},
    {{3, {7, 5, 9, 0}, 16, 0}, 100, 32, 21, 1},
    {{3, {7, 5, 9, 99}, 16, 7}, 12004, 4096, 1509, 1}, /* the most that hold with 4,096 words */
    {{3, {7, 5, 9, 0}, 16, 0}, 12005, 4096, 1509, 0},
    {{4, {7, 5, 7, 2}, 16, 0}, 20000, 4096, 2508, 0},
    {{4, {16, 16, 16, 16}, 16, 15}, UINT32_MAX, 4096, 4096, 0},
    {{1, {16, 0, 0, 0}, 16, 0}, 65536, 4096, 4096, 1}, /* all keys */
    {{1, {16, 0, 0, 0}, 16, 0}, 65537, 4096, 4096, 0}, /* one more than there are */
    {{2, {16, 1, 0, 0}, 16, 0}, 65536, 4096, 4096, 0},
    {{1, {16, 0, 0, 0}, 15, 0}, 65536, 4096, 4096, 0},
    {{2, {2, 2, 0, 0}, 16, 0}, 16, 1, 1, 1}, /* all keys in one page */
    {{2, {2, 2, 0, 0}, 16, 0}, 17, 16, 11, 0},
    {{2, {2, 2, 0, 0}, 2, 0}, 4, 8, 4, 1},
    {{2, {2, 2, 0, 0}, 1, 0}, 16, 16, 16, 1},
    {{1, {12, 0, 0, 0}, 1, 0}, 4096, 4096, 4096, 1},
    {{1, {13, 0, 0, 0}, 1, 0}, 4096, 4096, 4096, 0},
    {{1, {16, 0, 0, 0}, 1, 0}, 1, 1, 1, 1}, /* one page takes them */
    {{1, {16, 0, 0, 0}, 16, 0}, 16, 1, 1, 1},
    {{1, {16, 0, 0, 0}, 1, 0}, 2, 2048, 2, 1}, /* 1000 * 2048 * (2/2048)^2 / 2 is below 1, of 1024 words it is not */
    {{0, {7, 5, 9, 0}, 16, 0}, 10, 0, 0, 0},
    {{5, {7, 5, 9, 4}, 16, 0}, 10, 0, 0, 0},
    {{UINT32_MAX, {7, 5, 9, 4}, 16, 0}, 10, 0, 0, 0},
    {{3, {7, 0, 9, 0}, 16, 0}, 10, 0, 0, 0},
    {{3, {7, 5, 17, 0}, 16, 0}, 10, 0, 0, 0},
    {{3, {7, 5, UINT32_MAX, 0}, 16, 0}, 10, 0, 0, 0},
    {{3, {7, 5, 9, 0}, 0, 0}, 10, 0, 0, 0},
    {{3, {7, 5, 9, 0}, 17, 0}, 10, 0, 0, 0},
    {{3, {7, 5, 9, 0}, UINT32_MAX, 0}, 10, 0, 0, 0},
};

void room_values(void) {
    size_t i;
    for (i = 0; i < sizeof rooms / sizeof *rooms; i++) {
        MdehRoom room = mdeh_room(rooms[i].shape, rooms[i].records);
        HOLDS(room.words == rooms[i].words && room.holds == rooms[i].holds);
        HOLDS(room.bytes == (rooms[i].pages == 0 ? 0 : rooms[i].pages * MDEH_PAGE_BYTES(rooms[i].shape.capacity)));
    }
}

/* Whether a depth is deep enough for more records than a page takes, read as 1000 * n^(b+1) / (b+1)! <= 2^(L b): -1 where it is too close to say. */
static int deep_enough(uint32_t bits, uint32_t capacity, uint32_t depth, uint32_t n) {
    double most = 1, choices = 1000;
    uint32_t i;
    if (n <= capacity || ((uint64_t)capacity << depth) >> (bits < 63 ? bits : 63) >= 1)
        return 1;
    for (i = 0; i < capacity; i++)
        most *= (double)(1 << depth);
    for (i = capacity + 1; i > 0; i--) {
        choices *= n;
        choices /= i;
    }
    return choices < most * (1 - 1e-9) ? 1 : choices > most * (1 + 1e-9) ? 0 : -1;
}

/* mdeh_room gives a depth that is enough, and the depth before it is not; or it gives the deepest and says so. The
   pages are 8 more than take the records half full, if not one for each word or record. */
static void compare_room(MdehShape shape, uint32_t n) {
    MdehRoom room = mdeh_room(shape, n);
    uint32_t bits = model_bits(&shape), deepest = bits < 12 ? bits : 12, depth = 0;
    uint64_t pages = room.bytes / MDEH_PAGE_BYTES(shape.capacity), keys = (uint64_t)1 << (bits < 63 ? bits : 63);
    uint64_t counted = n < MDEH_MOST_RECORDS ? n : MDEH_MOST_RECORDS;
    while (depth < 12 && (size_t)1 << depth < room.words)
        depth++;
    HOLDS(room.words == (size_t)1 << depth && depth <= deepest && room.holds <= 1);
    HOLDS(room.bytes == pages * MDEH_PAGE_BYTES(shape.capacity) && pages >= 1);
    if (room.holds) {
        HOLDS(n <= keys && deep_enough(bits, shape.capacity, depth, n) != 0);
        HOLDS(depth == 0 || deep_enough(bits, shape.capacity, depth - 1, n) != 1);
    } else {
        HOLDS(depth == deepest && (n > keys || deep_enough(bits, shape.capacity, depth, n) != 1));
    }
    HOLDS(pages <= room.words && (pages <= counted || counted == 0));
    HOLDS(pages == room.words || pages >= counted || (pages - 8) * shape.capacity >= 2 * counted);
    HOLDS(pages <= 9 || (pages - 9) * shape.capacity < 2 * counted);
}

void room_bounds(void) {
    uint64_t seed = 0x51d;
    uint32_t turn, n;
    first_seed = seed;
    for (turn = 0; turn < 640; turn++) {
        MdehShape shape = random_shape(&seed, 1 + turn % 4, 1 + turn / 4 % 16);
        for (n = 0; n < 70000; n += 1 + n / 16 + below(&seed, 1 + n / 8))
            compare_room(shape, n);
        compare_room(shape, UINT32_MAX - below(&seed, 2));
    }
}

/* The greatest count that holds in so many words, from a count that does. */
static uint32_t most_in(MdehShape shape, size_t words, uint32_t n) {
    uint32_t step;
    for (step = 1 << 15; step > 0; step /= 2) {
        MdehRoom room = mdeh_room(shape, n + step);
        if (room.holds && room.words <= words)
            n += step;
    }
    return n;
}

/* The room for n records takes them, but for a 6, and is at most twice the pages that they took and eight. Gives
   whether it took them. */
static int compare_fill(Keys *keys, MdehShape shape, uint32_t n, uint64_t seed) {
    MdehRoom room = mdeh_room(shape, n);
    Filled filled;
    draw_from(keys, shape, seed);
    filled = fill(keys, room.words, room.bytes, n);
    if (filled.number == MDEH_REFUSED_DEPTH)
        return 0;
    HOLDS(filled.number == MDEH_ACCEPTED && filled.stored == n);
    HOLDS(room.bytes <= (2 * filled.pages + 8) * MDEH_PAGE_BYTES(shape.capacity));
    return 1;
}

/* Whether n records, where pages are large and keys many, are refused with 6 in so many words; 4,096 pages are lent. */
static int too_deep(Keys *keys, MdehShape shape, size_t words, uint32_t n, uint64_t seed) {
    uint32_t number;
    draw_from(keys, shape, seed);
    number = fill(keys, words, MDEH_MOST_PAGES * MDEH_PAGE_BYTES(shape.capacity), n).number;
    HOLDS(number == MDEH_ACCEPTED || number == MDEH_REFUSED_DEPTH);
    return number == MDEH_REFUSED_DEPTH;
}

void room_fills(void) {
    static Keys keys;
    uint64_t seed = 1;
    uint32_t turn, n, fills = 0, taken = 0, tried = 0, half = 0, quarter = 0;
    for (turn = 0; turn < 1024; turn++) {
        MdehShape shape = random_shape(&seed, 1 + turn % 4, 1 + turn / 4 % 16);
        /* the counts that fill each directory as far as it holds */
        for (n = 1; mdeh_room(shape, n).holds; n++) {
            MdehRoom room = mdeh_room(shape, n);
            n = most_in(shape, room.words, n);
            taken += (uint32_t)compare_fill(&keys, shape, n, number64(&seed));
            fills++;
            if (shape.capacity < 12 || room.words < 64 || model_bits(&shape) < 20)
                continue;
            half += (uint32_t)too_deep(&keys, shape, room.words / 2, n, number64(&seed));
            quarter += (uint32_t)too_deep(&keys, shape, room.words / 4, n, number64(&seed));
            tried++;
        }
    }
    /* 6 in less than one fill of 1,000; with half of the words in more than one of 40, with a quarter in nearly all */
    HOLDS(fills > 6000 && 1000 * (fills - taken) < fills);
    HOLDS(tried > 400 && 40 * half > tried && 10 * quarter > 9 * tried);
}

/* All keys of a shape, in any order, with as many pages as words. */
static void all_keys(Keys *keys, MdehShape shape, uint32_t depth) {
    uint32_t n = UINT32_C(1) << model_bits(&shape);
    Filled filled;
    draw_from(keys, shape, n + depth);
    filled = fill(keys, (size_t)1 << depth, MDEH_PAGE_BYTES(shape.capacity) << depth, n);
    HOLDS(filled.number == MDEH_ACCEPTED && filled.stored == n);
}

/* Keys that cluster, in a directory of any length, with as many pages as words: 6 comes and 7 does not. With one page
   less 7 comes in some. */
static void clustered(Keys *keys, uint64_t *seed, unsigned long came[8]) {
    MdehShape shape = random_shape(seed, 1 + below(seed, 4), 1 + below(seed, 4));
    uint32_t limit = below(seed, 8), i, j, less = below(seed, 2), bits = model_bits(&shape);
    size_t words = (size_t)1 << (limit < bits ? limit : bits), pages = words - (words > 1 ? less : 0);
    Memory memory = lend_store(seed, shape, words, pages * MDEH_PAGE_BYTES(shape.capacity));
    draw_from(keys, shape, *seed);
    for (i = 0; i < 600; i++) {
        MdehKey key = key_of(&shape, number64(&keys->seed));
        uint32_t number;
        for (j = 0; i % 4 != 0 && j < shape.attributes; j++)
            key.values[j] = model_value(&shape, j, model_encoding(&shape, j, key.values[j]) >> below(&keys->seed, 3));
        number = mdeh_insert(STORE(&memory), key, 1).number;
        HOLDS(number < 8 && (number != MDEH_REFUSED_PAGES || pages < words));
        came[number]++;
    }
    take_store_back(&memory);
}

void certain_rooms(void) {
    static const MdehShape sixteen[5] = {
        {1, {16, 0, 0, 0}, 16, 0}, {2, {3, 13, 0, 0}, 16, 2}, {2, {8, 8, 0, 0}, 16, 0}, {3, {7, 5, 4, 0}, 16, 5},
        {4, {4, 4, 4, 4}, 16, 0},
    };
    static Keys keys;
    unsigned long came[8] = {0, 0, 0, 0, 0, 0, 0, 0};
    uint64_t seed = 0xce27;
    uint32_t i, depth;
    for (i = 0; i < 5; i++)
        all_keys(&keys, sixteen[i], 12);
    for (i = 0; i < 64; i++) {
        MdehShape shape = random_shape(&seed, 1 + i % 4, 1 + i / 4);
        while (model_bits(&shape) > 11)
            shape.widths[below(&seed, shape.attributes)] = 1;
        for (depth = 0; UINT32_C(1) << (model_bits(&shape) - depth) > shape.capacity;)
            depth++;
        all_keys(&keys, shape, depth);
    }
    for (i = 0; i < 400; i++)
        clustered(&keys, &seed, came);
    HOLDS(came[MDEH_ACCEPTED] > 0 && came[MDEH_REFUSED_DEPTH] > 0 && came[MDEH_REFUSED_PAGES] > 0);
}

/* The ranks of a count at a width: each value is the floor, the way back is the least rank that is not below, and in
   halves, quarters and so on of the values are as many ranks as in the others, or one more. */
static void compare_spread(uint32_t count, uint32_t width) {
    static uint32_t inside[1 << 16];
    uint32_t rank, value, cut, next = 0;
    for (rank = 0; rank < count; rank++) {
        uint64_t from = (uint64_t)mdeh_spread(rank, count, width) * count, sought = (uint64_t)rank << width;
        HOLDS(from <= sought && sought < from + count);
        HOLDS(rank == 0 || mdeh_spread(rank - 1, count, width) < mdeh_spread(rank, count, width));
        HOLDS(mdeh_rank(mdeh_spread(rank, count, width), count, width) == rank);
    }
    for (value = 0; value < UINT32_C(1) << width; value++) {
        while (next < count && mdeh_spread(next, count, width) < value)
            next++;
        HOLDS(mdeh_rank(value, count, width) == next);
    }
    for (cut = 1; cut <= width && cut <= 6; cut++) {
        memset(inside, 0, sizeof *inside << cut);
        for (rank = 0; rank < count; rank++)
            inside[mdeh_spread(rank, count, width) >> (width - cut)]++;
        for (value = 0; value < UINT32_C(1) << cut; value++)
            HOLDS(inside[value] == count >> cut || inside[value] == (count >> cut) + 1);
    }
    HOLDS(mdeh_spread(count, count, width) == MDEH_NO_VALUE);
    HOLDS(mdeh_rank(UINT32_C(1) << width, count, width) == count);
}

void spread_ranks(void) {
    static const uint32_t counts[8] = {1, 24, 82, 100, 1000, 40000, 65535, 65536};
    static const uint32_t wide[5] = {17, 31, 32, 33, UINT32_MAX};
    uint32_t count, width, i;
    for (width = 0; width <= 8; width++)
        for (count = 1; count <= UINT32_C(1) << width; count++)
            compare_spread(count, width);
    for (i = 0; i < 8; i++)
        for (width = 9; width <= 16; width++)
            if (counts[i] <= UINT32_C(1) << width)
                compare_spread(counts[i], width);
    for (i = 0; i < 5; i++) {
        HOLDS(mdeh_spread(0, 1, wide[i]) == MDEH_NO_VALUE && mdeh_rank(0, 7, wide[i]) == 7);
        HOLDS(mdeh_reversed(0, wide[i]) == MDEH_NO_VALUE);
    }
    for (width = 0; width <= 16; width++) {
        count = (UINT32_C(1) << width) + 1;
        HOLDS(mdeh_spread(0, 0, width) == MDEH_NO_VALUE && mdeh_rank(0, 0, width) == 0);
        HOLDS(mdeh_spread(0, count, width) == MDEH_NO_VALUE && mdeh_rank(0, count, width) == count);
        HOLDS(mdeh_spread(UINT32_MAX, 1, width) == MDEH_NO_VALUE && mdeh_rank(UINT32_MAX, 1, width) == 1);
        HOLDS(mdeh_spread(0, UINT32_MAX, width) == MDEH_NO_VALUE);
        HOLDS(mdeh_rank(UINT32_MAX, UINT32_MAX, width) == UINT32_MAX);
    }
}

void reversed_values(void) {
    static const MdehShape shape = {2, {16, 16, 0, 0}, 16, MDEH_SIGNED(1)};
    uint32_t width, value, k;
    uint64_t seed = 1;
    Memory memory = lend_store(&seed, shape, 1, MDEH_PAGE_BYTES(16));
    for (width = 0; width <= 16; width++) {
        for (value = 0; value < UINT32_C(1) << width; value++) {
            uint32_t reversed = mdeh_reversed(value, width), differ = 0;
            for (k = 0; k < width; k++)
                differ |= (reversed >> (width - 1 - k) ^ value >> k) & 1;
            HOLDS(differ == 0 && reversed < UINT32_C(1) << width);
            HOLDS(mdeh_reversed(reversed, width) == value);
        }
        HOLDS(mdeh_reversed(UINT32_C(1) << width, width) == MDEH_NO_VALUE);
        HOLDS(mdeh_reversed(UINT32_MAX, width) == MDEH_NO_VALUE);
    }
    for (k = 0; k < 2; k++) {
        MdehKey key = {{0, 0, 0, 0}};
        key.values[k] = (int32_t)MDEH_NO_VALUE;
        HOLDS(gave(mdeh_insert(STORE(&memory), key, 1), MDEH_REFUSED_VALUE, 0));
    }
    take_store_back(&memory);
}

/* How a gateway's row becomes a key. */
typedef enum { PLAIN, BIASED, SPREAD, REVERSED, SPARE, REVERSED_SPARE } Choice;

static MdehKey row_key(Choice choice, uint32_t code, uint32_t slot, uint32_t release) {
    MdehKey key = {{0, 0, 0, 0}};
    key.values[0] = (int32_t)code;
    key.values[1] = (int32_t)slot;
    key.values[2] = (int32_t)(choice == PLAIN ? 398 + release : release);
    if (choice == SPREAD || choice == SPARE) {
        key.values[0] = (int32_t)mdeh_spread(code, 100, 7);
        key.values[1] = (int32_t)mdeh_spread(slot, 24, 5);
        key.values[2] = (int32_t)mdeh_spread(release, 82, 7);
    } else if (choice == REVERSED || choice == REVERSED_SPARE) {
        key.values[0] = (int32_t)mdeh_reversed(code, 7);
        key.values[1] = (int32_t)mdeh_reversed(slot, 5);
        key.values[2] = (int32_t)mdeh_reversed(release, 7);
    }
    if (choice == SPARE || choice == REVERSED_SPARE)
        key.values[3] = (int32_t)((code + slot + release) % 4);
    return key;
}

/* How many of 20,000 random rows are stored before the first is refused, but for those that are stored already; the
   memory is that of mdeh_room. The number of the refusal, 0 for none, stands beside it. */
static Filled store_rows(Choice choice, MdehShape shape, uint64_t seed) {
    Filled filled = {MDEH_ACCEPTED, 0, 0};
    MdehRoom room = mdeh_room(shape, 20000);
    uint64_t bytes_seed = seed; /* the rows are the same whatever the memory is */
    Memory memory = lend_store(&bytes_seed, shape, room.words, room.bytes);
    uint32_t row;
    first_seed = seed;
    for (row = 0; row < 20000 && filled.number == MDEH_ACCEPTED; row++) {
        uint32_t code = below(&seed, 100), slot = below(&seed, 24), release = below(&seed, 82);
        uint32_t number = mdeh_insert(STORE(&memory), row_key(choice, code, slot, release), 1).number;
        filled.stored += number == MDEH_ACCEPTED;
        if (number != MDEH_REFUSED_STORED)
            filled.number = number;
    }
    take_store_back(&memory);
    return filled;
}

void gateway_rows(void) {
    static const struct {
        MdehShape shape;
        Choice choice;
        uint32_t least, most; /* stored before the first 6 */
        uint32_t fills, whole; /* how many fills, and how many of them take all rows at least; 0: none does */
    } choices[7] = {
        {{3, {16, 16, 16, 0}, 16, 0}, PLAIN, 16, 16, 40, 0},
        {{3, {7, 5, 9, 0}, 16, 0}, PLAIN, 1500, 4000, 40, 0},
        {{3, {7, 5, 7, 0}, 16, 0}, BIASED, 6000, 13500, 40, 0},
        {{3, {7, 5, 7, 0}, 16, 0}, SPREAD, 11000, 19200, 40, 20},
        {{3, {7, 5, 7, 0}, 16, 0}, REVERSED, 11000, 19200, 40, 20},
        {{4, {7, 5, 7, 2}, 16, 0}, SPARE, 15000, 19200, 400, 388},
        {{4, {7, 5, 7, 2}, 16, 0}, REVERSED_SPARE, 4000, 10000, 40, 0},
    };
    uint32_t i, turn;
    for (i = 0; i < 7; i++) {
        uint32_t whole = 0;
        for (turn = 1; turn <= choices[i].fills; turn++) {
            Filled filled = store_rows(choices[i].choice, choices[i].shape, turn * 0x9e3779b97f4a7c15);
            HOLDS(filled.number == MDEH_ACCEPTED || filled.number == MDEH_REFUSED_DEPTH);
            HOLDS(choices[i].least <= filled.stored && filled.stored <= choices[i].most);
            whole += filled.number == MDEH_ACCEPTED;
        }
        HOLDS(choices[i].whole == 0 ? whole == 0 : whole >= choices[i].whole);
    }
}

/* Replaces the payload of each stored key of those that have been drawn. */
static void replace_payloads(Memory *memory, const MdehKey *stored, uint32_t count) {
    uint32_t i;
    for (i = 0; i < count; i++) {
        HOLDS(mdeh_delete(STORE(memory), stored[i]).number == MDEH_ACCEPTED);
        HOLDS(mdeh_lookup(STORE(memory), stored[i]).number == MDEH_REFUSED_ABSENT);
        HOLDS(mdeh_insert(STORE(memory), stored[i], 1000 + i).number == MDEH_ACCEPTED);
        HOLDS(mdeh_lookup(STORE(memory), stored[i]).payload == 1000 + i);
        HOLDS(mdeh_check(STORE(memory)).sound == 1);
    }
}

void replaced_payloads(void) {
    static Keys keys;
    static MdehKey stored[300];
    unsigned long came[8] = {0, 0, 0, 0, 0, 0, 0, 0};
    uint64_t seed = 0x4e91;
    uint32_t turn, i, count, number;
    for (turn = 0; turn < 200; turn++) {
        MdehShape shape = random_shape(&seed, 1 + turn % 4, 1 + turn / 4 % 5);
        size_t words = (size_t)1 << below(&seed, 7), pages = 1 + below(&seed, 40);
        Memory memory = lend_store(&seed, shape, words, pages * MDEH_PAGE_BYTES(shape.capacity));
        draw_from(&keys, shape, number64(&seed));
        for (i = count = 0; i < 300 && (keys.bits > 16 || i < UINT32_C(1) << keys.bits); i++) {
            MdehKey key = draw(&keys);
            number = mdeh_insert(STORE(&memory), key, 1).number;
            came[number]++;
            if (number == MDEH_ACCEPTED)
                stored[count++] = key;
        }
        replace_payloads(&memory, stored, count);
        take_store_back(&memory);
    }
    HOLDS(came[MDEH_REFUSED_DEPTH] > 0 && came[MDEH_REFUSED_PAGES] > 0);
}
