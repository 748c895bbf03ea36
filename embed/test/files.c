#include "files.h"

#include "lent.h"
#include "model_file.h"
#include "shapes.h"

#include <string.h>

/* Room for the files of the tests. */
#define ROOM MDEH_FILE_BYTES(700)

/* The slices of a store, between guards. */
typedef struct {
    Lent state, directory, pages;
} Slices;

#define STORE(slices) \
    words_of(&(slices).state), (slices).state.bytes / 4, words_of(&(slices).directory), (slices).directory.bytes / 4, \
        bytes_of(&(slices).pages), (slices).pages.bytes

static uint64_t seed = 1;

/* How often each number came since the last `all_came`. */
static unsigned long came[MDEH_REFUSED_CAPACITY + 1];

/* Numbers that have to have come. */
static void all_came(const uint32_t *numbers, size_t count) {
    size_t i;
    for (i = 0; i < count; i++)
        HOLDS(came[numbers[i]] > 0);
    memset(came, 0, sizeof came);
}

/* Random memory. */
static Slices lend_slices(size_t state, size_t words, size_t bytes) {
    Slices slices;
    slices.state = lend_words(&seed, state);
    slices.directory = lend_words(&seed, words);
    slices.pages = lend_bytes(&seed, bytes);
    return slices;
}

static int slices_unchanged(const Slices *slices) {
    return unchanged_from(&slices->state, 0) && unchanged_from(&slices->directory, 0)
        && unchanged_from(&slices->pages, 0);
}

static void lend_slices_again(Slices *slices) {
    lend_again(&slices->state);
    lend_again(&slices->directory);
    lend_again(&slices->pages);
}

static void take_slices_back(Slices *slices) {
    take_back(&slices->state);
    take_back(&slices->directory);
    take_back(&slices->pages);
}

/* Saves a store into an output of this length: these bytes of a file, or 2 for an output that is too short. */
static void compare_save(Slices *slices, size_t room, const uint8_t *file, size_t size) {
    Lent out = lend_bytes(&seed, room);
    MdehSaveResult saved = mdeh_save(STORE(*slices), bytes_of(&out), room);
    HOLDS(slices_unchanged(slices));
    if (room < size) {
        HOLDS(saved.number == MDEH_REFUSED_MEMORY && saved.size == 0);
        HOLDS(unchanged_from(&out, 0));
    } else {
        HOLDS(saved.number == MDEH_ACCEPTED && saved.size == size);
        HOLDS(memcmp(bytes_of(&out), file, size) == 0);
        HOLDS(unchanged_from(&out, size));
    }
    take_back(&out);
}

/* After an accepted load: shape and limits, what never changes, a sound store, and the same file again. */
static void compare_loaded(Slices *slices, const Model *model, const uint8_t *file, size_t size) {
    const uint32_t *state = words_of(&slices->state);
    MdehShape shape = mdeh_shape(state);
    MdehCheckResult check;
    HOLDS(memcmp(&shape, &model->shape, sizeof shape) == 0);
    HOLDS(state[6] == model->page_limit && state[7] == model->depth_limit);
    HOLDS(unchanged_from(&slices->state, 4 * MDEH_STATE_WORDS));
    HOLDS(unchanged_from(&slices->directory, (size_t)4 << model->depth_limit));
    HOLDS(unchanged_from(&slices->pages, model->page_limit * MDEH_PAGE_BYTES(shape.capacity)));
    lend_slices_again(slices);
    check = mdeh_check(STORE(*slices));
    HOLDS(check.number == MDEH_ACCEPTED && check.sound == 1);
    compare_save(slices, size + below(&seed, 30), file, size);
}

/* Loads a file into memory of these lengths: number and attribute, and all that is written. Returns the number. */
static uint32_t compare_load(const uint8_t *file, size_t size, size_t state, size_t words, size_t bytes) {
    static Model model;
    Slices slices = lend_slices(state, words, bytes);
    Lent lent = lend_bytes(&seed, size);
    MdehMakeResult loaded, wanted;
    /* a state that is too short is refused where no memory would be */
    if (state < MDEH_STATE_WORDS)
        wanted = model_load(&model, file, size, 0, 0);
    else
        wanted = model_load(&model, file, size, words, bytes);
    memcpy(bytes_of(&lent), file, size);
    lend_again(&lent);
    loaded = mdeh_load(bytes_of(&lent), size, STORE(slices));
    HOLDS(loaded.number == wanted.number && loaded.attribute == wanted.attribute);
    HOLDS(unchanged_from(&lent, 0));
    if (loaded.number == MDEH_ACCEPTED)
        compare_loaded(&slices, &model, file, size);
    else
        HOLDS(slices_unchanged(&slices));
    came[loaded.number]++;
    take_back(&lent);
    take_slices_back(&slices);
    return loaded.number;
}

/* A shape within its bounds, with marks in one of two. */
static MdehShape random_shape(void) {
    MdehShape shape = {0, {0, 0, 0, 0}, 0, 0};
    uint32_t j, narrow = below(&seed, 4);
    shape.attributes = 1 + below(&seed, 4);
    for (j = 0; j < shape.attributes; j++)
        shape.widths[j] = 1 + below(&seed, narrow ? 4 : 16);
    shape.capacity = 1 + below(&seed, narrow ? 3 : 16);
    shape.signs = below(&seed, 2) ? below(&seed, (uint32_t)1 << shape.attributes) : 0;
    return shape;
}

static MdehKey random_key(const MdehShape *shape) {
    MdehKey key;
    uint32_t j;
    for (j = 0; j < 4; j++)
        key.values[j] = model_value(shape, j, below(&seed, j < shape->attributes ? 1u << shape->widths[j] : 1));
    return key;
}

/* A set of so many records, less those that are refused, one payload in four 0. */
static void random_set(Model *model, MdehShape shape, uint32_t most) {
    HOLDS(made(model_fresh(model, shape, 4096, 100 * MDEH_PAGE_BYTES(shape.capacity)), MDEH_ACCEPTED));
    for (; most > 0; most--)
        model_join(model, random_key(&shape), below(&seed, 4) ? 1 + below(&seed, 1000) : 0);
}

/* ---- save */

static const MdehShape small = {2, {2, 2, 0, 0}, 2, 0};
static const MdehShape drives = {2, {6, 10, 0, 0}, 3, MDEH_SIGNED(1)};
static const MdehShape many = {3, {8, 8, 10, 0}, 16, MDEH_SIGNED(2)};

void file_layout(void) {
    static const MdehKey keys[4] = {{{0, 0, 0, 0}}, {{2, 0, 0, 0}}, {{3, 1, 0, 0}}, {{2, 1, 0, 0}}};
    static const MdehKey drive = {{5, -3, 0, 0}};
    static const uint8_t empty[24] = {2, 6, 10, 0, 0, 3, 2, 0, 'M', 'D', 'E', 'H',
                                      24, 0, 0, 0, 24, 0, 0, 0, 0, 0, 0, 0};
    static const uint8_t one[36] = {5, 0, 0xfd, 0xff, 0, 0, 0, 0, 0x44, 0x33, 0x22, 0x11, 2, 6, 10, 0, 0, 3, 2, 0,
                                    'M', 'D', 'E', 'H', 24, 0, 0, 0, 36, 0, 0, 0, 1, 0, 0, 0};
    static const uint8_t four[72] = {0, 0, 0, 0, 0, 0, 0, 0, 10, 0, 0, 0, 2, 0, 0, 0, 0, 0, 0, 0, 11, 0, 0, 0,
                                     2, 0, 1, 0, 0, 0, 0, 0, 13, 0, 0, 0, 3, 0, 1, 0, 0, 0, 0, 0, 12, 0, 0, 0,
                                     2, 2, 2, 0, 0, 2, 0, 0, 'M', 'D', 'E', 'H', 24, 0, 0, 0, 72, 0, 0, 0, 4, 0, 0, 0};
    Slices slices = lend_slices(MDEH_STATE_WORDS, 8, 4 * MDEH_PAGE_BYTES(3));
    uint32_t i;
    HOLDS(MDEH_FILE_BYTES(0) == 24 && MDEH_FILE_BYTES(4) == 72);
    HOLDS(made(mdeh_fresh(drives, STORE(slices)), MDEH_ACCEPTED));
    lend_slices_again(&slices);
    compare_save(&slices, 100, empty, 24);
    HOLDS(mdeh_insert(STORE(slices), drive, 0x11223344).number == MDEH_ACCEPTED);
    /* widths and marks without an attribute, which calls ignore, are written as 0 */
    words_of(&slices.state)[3] = 9;
    words_of(&slices.state)[MDEH_STATE_WORDS - 1] |= 0xfffffffc;
    lend_slices_again(&slices);
    compare_save(&slices, 100, one, 36);
    HOLDS(made(mdeh_fresh(small, STORE(slices)), MDEH_ACCEPTED));
    for (i = 0; i < 4; i++)
        HOLDS(mdeh_insert(STORE(slices), keys[i], 10 + i).number == MDEH_ACCEPTED);
    lend_slices_again(&slices);
    compare_save(&slices, 100, four, 72);
    take_slices_back(&slices);
}

/* A store of the model's set: its records inserted in random order, between others that are deleted again. */
static Slices filled(const Model *model, size_t words, size_t bytes) {
    Slices slices = lend_slices(MDEH_STATE_WORDS + below(&seed, 2), words, bytes);
    uint32_t order[MOST_RECORDS], i, k;
    HOLDS(made(mdeh_fresh(model->shape, STORE(slices)), MDEH_ACCEPTED));
    for (i = 0; i < model->count; i++) {
        k = below(&seed, i + 1);
        order[i] = order[k];
        order[k] = i;
    }
    for (i = 0; i < model->count; i++) {
        const MdehRecord *record = &model->records[order[i]].record;
        MdehKey key, other = random_key(&model->shape);
        memcpy(key.values, record->values, sizeof key.values);
        if (mdeh_insert(STORE(slices), other, 7).number == MDEH_ACCEPTED)
            HOLDS(mdeh_delete(STORE(slices), other).number == MDEH_ACCEPTED);
        HOLDS(mdeh_insert(STORE(slices), key, record->payload).number == MDEH_ACCEPTED);
    }
    lend_slices_again(&slices);
    return slices;
}

void file_orders(void) {
    static Model model;
    uint8_t file[ROOM], other[ROOM];
    uint32_t i, n;
    for (i = 0; i < 300; i++) {
        MdehShape shape = i == 0 ? many : random_shape();
        size_t size;
        random_set(&model, shape, i == 0 ? 700 : below(&seed, 60));
        HOLDS(i > 0 || model.count > 256);
        for (n = 0; n < model.count; n++)
            model.records[n].record.payload |= 1;
        size = model_save(&model, file);
        for (n = 0; n < 3; n++) {
            size_t bytes = (100 + below(&seed, 9)) * MDEH_PAGE_BYTES(shape.capacity) + below(&seed, 14);
            Slices slices = filled(&model, 4096 + below(&seed, 9), bytes);
            compare_save(&slices, size + below(&seed, 3), file, size);
            take_slices_back(&slices);
        }
        if (model.count == 0)
            continue;
        model.records[below(&seed, (uint32_t)model.count)].record.payload ^= 2;
        HOLDS(model_save(&model, other) == size && memcmp(file, other, size) != 0);
        compare_load(other, size, MDEH_STATE_WORDS, 4096, 100 * MDEH_PAGE_BYTES(shape.capacity));
    }
}

void file_outputs(void) {
    static Model model;
    uint8_t file[ROOM];
    uint32_t i;
    for (i = 0; i < 40; i++) {
        size_t room, size, words, bytes, pages;
        Slices slices;
        random_set(&model, random_shape(), below(&seed, 13));
        for (room = 0; room < model.count; room++)
            model.records[room].record.payload |= 1;
        pages = MDEH_PAGE_BYTES(model.shape.capacity);
        slices = filled(&model, 4096, 100 * pages);
        size = model_save(&model, file);
        for (room = 0; room < size + 30; room++)
            compare_save(&slices, room, file, size);
        /* 1 for too few state words, then 2 for too few words or pages, into any output */
        words = ((size_t)1 << model.depth_limit) - 1;
        bytes = model.page_limit * pages - 1;
        for (room = 0; room < 5; room++) {
            Lent out = lend_bytes(&seed, room % 2 ? size : 0);
            uint32_t *state = words_of(&slices.state), *directory = words_of(&slices.directory);
            uint8_t *place = bytes_of(&slices.pages);
            MdehSaveResult saved;
            saved = mdeh_save(state, MDEH_STATE_WORDS - 1 - room, directory, 0, place, 0, bytes_of(&out), out.bytes);
            HOLDS(saved.number == MDEH_REFUSED_SHAPE && saved.size == 0);
            saved = mdeh_save(state, MDEH_STATE_WORDS, directory, words, place, bytes + 1, bytes_of(&out), out.bytes);
            HOLDS(saved.number == MDEH_REFUSED_MEMORY && saved.size == 0);
            saved = mdeh_save(state, MDEH_STATE_WORDS, directory, words + 1, place, bytes, bytes_of(&out), out.bytes);
            HOLDS(saved.number == MDEH_REFUSED_MEMORY && saved.size == 0);
            HOLDS(unchanged_from(&out, 0) && slices_unchanged(&slices));
            take_back(&out);
        }
        take_slices_back(&slices);
    }
}

/* ---- load */

/* Memory of any length that leaves room for some of the files: few words and pages are likely. */
static uint32_t load_somewhere(const uint8_t *file, size_t size, const MdehShape *shape) {
    size_t pages = below(&seed, 4) ? below(&seed, 6) : 20;
    size_t bytes = pages * MDEH_PAGE_BYTES(shape->capacity) + below(&seed, 3);
    size_t words = below(&seed, 3) ? 256 : below(&seed, 20);
    return compare_load(file, size, MDEH_STATE_WORDS + below(&seed, 3), words, bytes);
}

void file_changes(void) {
    static const uint32_t numbers[8] = {MDEH_ACCEPTED,         MDEH_REFUSED_SHAPE, MDEH_REFUSED_WIDTH,
                                        MDEH_REFUSED_CAPACITY, MDEH_REFUSED_DEPTH, MDEH_REFUSED_PAGES,
                                        MDEH_REFUSED_FILE,     MDEH_REFUSED_CONTENT};
    static Model model;
    uint8_t file[ROOM];
    uint32_t i, n;
    for (i = 0; i < 20; i++) {
        size_t size, place;
        random_set(&model, random_shape(), below(&seed, 21));
        size = model_save(&model, file);
        load_somewhere(file, size, &model.shape);
        for (place = 0; place < size; place++) {
            uint8_t before = file[place];
            for (n = 1; n < 256; n++) {
                if (place < size - 24 && n > 2 && n < 0x80 && below(&seed, 30))
                    continue;
                file[place] = before ^ (uint8_t)n;
                load_somewhere(file, size, &model.shape);
            }
            file[place] = before;
        }
    }
    all_came(numbers, 8);
}

void file_lengths(void) {
    static const uint32_t numbers[3] = {MDEH_ACCEPTED, MDEH_REFUSED_FILE, MDEH_REFUSED_CONTENT};
    static Model model;
    uint8_t bytes[ROOM + 100];
    uint32_t i, n;
    for (i = 0; i < 100; i++) {
        size_t size, place;
        for (place = 0; place < sizeof bytes; place++)
            bytes[place] = (uint8_t)(number64(&seed) >> 56);
        random_set(&model, random_shape(), below(&seed, 21));
        size = model_save(&model, bytes + 50);
        for (place = 0; place < size; place++) {
            load_somewhere(bytes + 50, place, &model.shape);
            load_somewhere(bytes + 50 + place, size - place, &model.shape);
        }
        for (n = 1; n <= 50; n++) {
            load_somewhere(bytes + 50, size + n, &model.shape);
            load_somewhere(bytes + 50 - n, size + n, &model.shape);
        }
        /* records or other bytes in front, with a trailer that counts them */
        for (n = 1; n <= 4 && n <= model.count; n++) {
            size_t less = size - 12 * n;
            bytes[50 + size - 8] = (uint8_t)less;
            bytes[50 + size - 7] = (uint8_t)(less >> 8);
            bytes[50 + size - 4] = (uint8_t)(model.count - n);
            HOLDS(load_somewhere(bytes + 50 + 12 * n, less, &model.shape) != MDEH_REFUSED_FILE);
        }
        bytes[50 + size - 8] = (uint8_t)(size + 12);
        bytes[50 + size - 7] = (uint8_t)((size + 12) >> 8);
        bytes[50 + size - 4] = (uint8_t)(model.count + 1);
        HOLDS(load_somewhere(bytes + 38, size + 12, &model.shape) != MDEH_REFUSED_FILE);
    }
    all_came(numbers, 3);
}

void file_counts(void) {
    static const uint32_t more[8] = {1, (uint32_t)1 << 30, (uint32_t)1 << 31, (uint32_t)3 << 30, UINT32_MAX,
                                     0x15555555, 0x2aaaaaab, 0x55555555};
    static Model model;
    uint8_t file[ROOM];
    uint32_t i, n, k;
    for (i = 0; i < 100; i++) {
        size_t size;
        random_set(&model, random_shape(), below(&seed, 11));
        size = model_save(&model, file);
        HOLDS(load_somewhere(file, size, &model.shape) != MDEH_REFUSED_FILE);
        for (n = 0; n < 10; n++) {
            /* counts with the same distances modulo 2^32 or near them, the greatest, and any */
            uint32_t any = 1 + below(&seed, UINT32_MAX);
            uint32_t count = n == 8 ? UINT32_MAX : (uint32_t)model.count + (n < 8 ? more[n] : any);
            uint32_t distance = 24 + 12 * count;
            for (k = 0; k < 4; k++)
                file[size - 4 + k] = (uint8_t)(count >> 8 * k);
            HOLDS(load_somewhere(file, size, &model.shape) == MDEH_REFUSED_FILE);
            for (k = 0; k < 4; k++)
                file[size - 8 + k] = (uint8_t)(distance >> 8 * k);
            HOLDS(load_somewhere(file, size, &model.shape) == MDEH_REFUSED_FILE);
            model_save(&model, file);
        }
    }
    memset(came, 0, sizeof came);
}

void file_memory(void) {
    static const uint32_t numbers[5] = {MDEH_ACCEPTED, MDEH_REFUSED_MEMORY, MDEH_REFUSED_DEPTH, MDEH_REFUSED_PAGES,
                                        MDEH_REFUSED_CONTENT};
    static Model model;
    uint8_t file[ROOM];
    uint32_t i, words, pages;
    for (i = 0; i < 60; i++) {
        size_t size, state, page;
        random_set(&model, random_shape(), below(&seed, 21));
        size = model_save(&model, file);
        page = MDEH_PAGE_BYTES(model.shape.capacity);
        for (words = 0; words < 70; words += 1 + words / 9)
            for (pages = 0; pages <= 12; pages++)
                compare_load(file, size, MDEH_STATE_WORDS, words, pages * page + below(&seed, (uint32_t)page));
        /* more than 4,096 pages */
        if (i % 20 == 0)
            HOLDS(compare_load(file, size, MDEH_STATE_WORDS, 5000, 4100 * page) == MDEH_ACCEPTED);
        for (state = 0; state < MDEH_STATE_WORDS; state++) {
            HOLDS(compare_load(file, size, state, 4096, 100 * page) == MDEH_REFUSED_MEMORY);
            file[size - 17] = 1;
            HOLDS(compare_load(file, size, state, 4096, 100 * page) == MDEH_REFUSED_CONTENT);
            file[size - 19] = 17;
            HOLDS(compare_load(file, size, state, 4096, 100 * page) == MDEH_REFUSED_CAPACITY);
            file[size - 24 + model.shape.attributes] = 0;
            HOLDS(compare_load(file, size, state, 4096, 100 * page) == MDEH_REFUSED_WIDTH);
            file[size - 24] = 5;
            HOLDS(compare_load(file, size, state, 4096, 100 * page) == MDEH_REFUSED_SHAPE);
            HOLDS(compare_load(file, size - 1, state, 4096, 100 * page) == MDEH_REFUSED_FILE);
            model_save(&model, file);
        }
        HOLDS(made(mdeh_load(file, size, NULL, 0, NULL, 0, NULL, 0), MDEH_REFUSED_MEMORY));
        HOLDS(made(mdeh_load(NULL, 0, NULL, 0, NULL, 0, NULL, 0), MDEH_REFUSED_FILE));
    }
    all_came(numbers, 5);
}

/* A file of random keys, one in three out of order or with a key twice, and up to two bits changed. */
static size_t nearly_a_file(uint8_t *file) {
    static Model model;
    size_t size;
    uint32_t n;
    random_set(&model, random_shape(), below(&seed, 41));
    if (model.count > 1 && below(&seed, 3) == 0) {
        uint32_t i = below(&seed, (uint32_t)model.count - 1);
        ModelRecord moved = model.records[i];
        if (below(&seed, 2))
            model.records[i] = model.records[i + 1];
        model.records[i + 1] = moved;
    }
    size = model_save(&model, file);
    for (n = below(&seed, 3); n > 0; n--)
        file[below(&seed, (uint32_t)size)] ^= (uint8_t)(1 << below(&seed, 8));
    return size;
}

/* Random bytes, small ones likely, that end in so many of the last 24 bytes of a file of their length. */
static size_t random_bytes(uint8_t *file, size_t right) {
    static Model model;
    uint8_t end[ROOM];
    size_t i, size = right ? 24 + 12 * below(&seed, 12) : below(&seed, 200);
    for (i = 0; i < size; i++)
        file[i] = (uint8_t)(number64(&seed) >> (below(&seed, 2) ? 56 : 62));
    random_set(&model, random_shape(), 0);
    if (right) {
        model.count = (size - 24) / 12;
        memcpy(file + size - right, end + model_save(&model, end) - right, right);
    }
    return size;
}

void file_bytes(void) {
    static const uint32_t numbers[9] = {MDEH_ACCEPTED,         MDEH_REFUSED_SHAPE,  MDEH_REFUSED_WIDTH,
                                        MDEH_REFUSED_CAPACITY, MDEH_REFUSED_MEMORY, MDEH_REFUSED_DEPTH,
                                        MDEH_REFUSED_PAGES,    MDEH_REFUSED_FILE,   MDEH_REFUSED_CONTENT};
    static const size_t right[4] = {0, 12, 16, 24};
    uint8_t file[ROOM];
    uint32_t i;
    for (i = 0; i < 20000; i++) {
        MdehShape shape = random_shape();
        size_t size = i % 2 ? nearly_a_file(file) : random_bytes(file, right[i / 2 % 4]);
        load_somewhere(file, size, &shape);
    }
    all_came(numbers, 9);
}

/* ---- damage */

/* Spoils a word or a byte, or many. */
static void spoil(Slices *slices, const Model *model) {
    uint32_t word = below(&seed, 2) ? below(&seed, 5) : (uint32_t)number64(&seed), n = below(&seed, 4) ? 1 : 200;
    size_t bytes = model->page_limit * MDEH_PAGE_BYTES(model->shape.capacity);
    switch (below(&seed, 3)) {
    case 0: words_of(&slices->state)[below(&seed, MDEH_STATE_WORDS)] = word; break;
    case 1:
        for (; n > 0; n--)
            words_of(&slices->directory)[below(&seed, (uint32_t)1 << model->depth_limit)] ^= 1u << below(&seed, 20);
        break;
    default:
        for (; n > 0; n--)
            bytes_of(&slices->pages)[below(&seed, (uint32_t)bytes)] = (uint8_t)(number64(&seed) >> 60);
    }
    lend_slices_again(slices);
}

/* A save of any store: what check refuses it with, or 2, 9 or a file whose end is that of its length and the shape. */
static void compare_any(Slices *slices) {
    static Model model;
    Lent out = lend_bytes(&seed, below(&seed, (uint32_t)ROOM));
    MdehCheckResult check = mdeh_check(STORE(*slices));
    MdehSaveResult saved = mdeh_save(STORE(*slices), bytes_of(&out), out.bytes);
    HOLDS(slices_unchanged(slices));
    came[saved.number]++;
    if (saved.number != MDEH_ACCEPTED) {
        int ordinary = saved.number == MDEH_REFUSED_MEMORY || (saved.number == MDEH_REFUSED_UNSOUND && !check.sound);
        HOLDS(saved.size == 0 && unchanged_from(&out, 0));
        HOLDS(check.number == MDEH_ACCEPTED ? ordinary : saved.number == check.number);
        HOLDS(saved.attribute == check.attribute);
    } else {
        uint8_t end[ROOM];
        HOLDS(check.number == MDEH_ACCEPTED);
        HOLDS(saved.size <= out.bytes && saved.size >= 24 && saved.size % 12 == 0);
        HOLDS(unchanged_from(&out, (size_t)saved.size));
        model.shape = mdeh_shape(words_of(&slices->state));
        model.count = (size_t)saved.size / 12 - 2;
        model_save(&model, end);
        HOLDS(memcmp(bytes_of(&out) + saved.size - 24, end + saved.size - 24, 24) == 0);
        HOLDS(!check.sound || compare_load(bytes_of(&out), (size_t)saved.size, MDEH_STATE_WORDS, 4096, 100 * 194) == 0);
    }
    take_back(&out);
}

void file_damage(void) {
    static const uint32_t numbers[6] = {MDEH_ACCEPTED,         MDEH_REFUSED_SHAPE,  MDEH_REFUSED_WIDTH,
                                        MDEH_REFUSED_CAPACITY, MDEH_REFUSED_MEMORY, MDEH_REFUSED_UNSOUND};
    static Model model;
    uint8_t file[ROOM];
    uint32_t i, n;
    for (i = 0; i < 400; i++) {
        MdehShape shape = random_shape();
        Slices slices;
        size_t size;
        random_set(&model, shape, below(&seed, 61));
        size = model_save(&model, file);
        slices = lend_slices(MDEH_STATE_WORDS, 4096, 100 * MDEH_PAGE_BYTES(shape.capacity));
        HOLDS(made(mdeh_load(file, size, STORE(slices)), MDEH_ACCEPTED));
        lend_slices_again(&slices);
        compare_any(&slices);
        for (n = 0; n < 20; n++) {
            spoil(&slices, &model);
            compare_any(&slices);
        }
        take_slices_back(&slices);
    }
    all_came(numbers, 6);
}
