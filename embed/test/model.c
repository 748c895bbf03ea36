#include "model.h"

#include <string.h>

/* A non-empty leaf: the split bits of a record of it, and how many of them are the leaf's. */
typedef struct {
    uint64_t code;
    uint32_t depth;
} Leaf;

uint32_t model_bits(const MdehShape *shape) {
    uint32_t j, bits = 0;
    for (j = 0; j < shape->attributes; j++)
        bits += shape->widths[j];
    return bits;
}

/* Whether attribute j is one of the shape's, and marked as signed. */
static int is_marked(const MdehShape *shape, uint32_t j) {
    return j < shape->attributes && shape->signs >> j & 1;
}

int32_t model_least(const MdehShape *shape, uint32_t j) {
    return is_marked(shape, j) ? -((int32_t)1 << (shape->widths[j] - 1)) : 0;
}

int32_t model_greatest(const MdehShape *shape, uint32_t j) {
    if (j >= shape->attributes)
        return 0;
    return model_least(shape, j) + ((int32_t)1 << shape->widths[j]) - 1;
}

uint32_t model_encoding(const MdehShape *shape, uint32_t j, int32_t value) {
    return (uint32_t)value - (uint32_t)model_least(shape, j);
}

int32_t model_value(const MdehShape *shape, uint32_t j, uint32_t encoding) {
    return (int32_t)encoding + model_least(shape, j);
}

/* Whether a number is a value of attribute j. */
static int is_value(const MdehShape *shape, uint32_t j, int32_t number) {
    return model_least(shape, j) <= number && number <= model_greatest(shape, j);
}

MdehMakeResult model_shape(const MdehShape *shape) {
    MdehMakeResult amiss = {MDEH_ACCEPTED, 0};
    uint32_t j = 0;
    if (shape->attributes < 1 || shape->attributes > 4) {
        amiss.number = MDEH_REFUSED_SHAPE;
        return amiss;
    }
    while (j < shape->attributes && shape->widths[j] >= 1 && shape->widths[j] <= 16)
        j++;
    if (j < shape->attributes) {
        amiss.number = MDEH_REFUSED_WIDTH;
        amiss.attribute = j;
    } else if (shape->capacity < 1 || shape->capacity > 16) {
        amiss.number = MDEH_REFUSED_CAPACITY;
    }
    return amiss;
}

/* The split bits of four encodings, the first one highest: bit k of each attribute in turn, the most significant
   first. */
static uint64_t code_of(const MdehShape *shape, const uint32_t *encodings) {
    uint32_t place, t = 0;
    uint64_t code = 0;
    for (place = 0; place < 64; place++) {
        uint32_t k = place / 4, j = place % 4;
        if (j < shape->attributes && k < shape->widths[j])
            code |= (uint64_t)(encodings[j] >> (shape->widths[j] - 1 - k) & 1) << (63 - t++);
    }
    return code;
}

uint64_t model_code(const MdehShape *shape, MdehKey key) {
    uint32_t encodings[4], j;
    for (j = 0; j < 4; j++)
        encodings[j] = model_encoding(shape, j, key.values[j]);
    return code_of(shape, encodings);
}

/* The key whose split bits these are. */
static MdehKey key_of(const MdehShape *shape, uint64_t code) {
    MdehKey key;
    uint32_t encodings[4] = {0, 0, 0, 0}, place, t = 0;
    for (place = 0; place < 64; place++) {
        uint32_t k = place / 4, j = place % 4;
        if (j < shape->attributes && k < shape->widths[j])
            encodings[j] = encodings[j] << 1 | (uint32_t)(code >> (63 - t++) & 1);
    }
    for (place = 0; place < 4; place++)
        key.values[place] = model_value(shape, place, encodings[place]);
    return key;
}

int model_fits(const MdehShape *shape, MdehKey key) {
    uint32_t j;
    for (j = 0; j < 4; j++)
        if (!is_value(shape, j, key.values[j]))
            return 0;
    return 1;
}

/* Where a code stands in the list, or would. */
static size_t place_of(const Model *model, uint64_t code) {
    size_t i = 0;
    while (i < model->count && model->records[i].code < code)
        i++;
    return i;
}

static int is_stored(const Model *model, uint64_t code) {
    size_t i = place_of(model, code);
    return i < model->count && model->records[i].code == code;
}

/* Puts the non-empty leaves of a region of depth x with these records at a place, and returns the one after them;
   more records than the capacity are divided by their next bit. */
static Leaf *put_leaves(const Model *model, size_t from, size_t end, uint32_t x, Leaf *place) {
    size_t middle = from;
    if (end - from > model->shape.capacity) {
        while (middle < end && !(model->records[middle].code >> (63 - x) & 1))
            middle++;
        return put_leaves(model, middle, end, x + 1, put_leaves(model, from, middle, x + 1, place));
    }
    if (end > from) {
        place->code = model->records[from].code;
        place->depth = x;
        place++;
    }
    return place;
}

/* The non-empty leaves of the model's set, and how many they are. */
static size_t leaves(const Model *model, Leaf *found) {
    return (size_t)(put_leaves(model, 0, model->count, 0, found) - found);
}

MdehMakeResult model_fresh(Model *model, MdehShape shape, size_t words, size_t bytes) {
    MdehMakeResult made = model_shape(&shape);
    size_t pages;
    uint32_t bits, j, signs = 0;
    if (made.number != MDEH_ACCEPTED)
        return made;
    pages = bytes / MDEH_PAGE_BYTES(shape.capacity);
    if (words == 0 || pages == 0) {
        made.number = MDEH_REFUSED_MEMORY;
        return made;
    }
    bits = model_bits(&shape);
    for (j = 0; j < 4; j++)
        signs |= (uint32_t)is_marked(&shape, j) << j;
    shape.signs = signs;
    model->shape = shape;
    model->count = 0;
    model->page_limit = pages < 4096 ? (uint32_t)pages : 4096;
    model->depth_limit = 0;
    while (model->depth_limit < 12 && model->depth_limit < bits && words >> (model->depth_limit + 1))
        model->depth_limit++;
    return made;
}

/* How many stored keys share their first x split bits with a code. */
static uint32_t sharing(const Model *model, uint64_t code, uint32_t x) {
    size_t i;
    uint32_t found = 0;
    for (i = 0; i < model->count; i++)
        found += x == 0 || (model->records[i].code ^ code) >> (64 - x) == 0;
    return found;
}

uint32_t model_depth(const Model *model, MdehKey key) {
    uint64_t code = model_code(&model->shape, key);
    uint32_t x = 0;
    while (sharing(model, code, x) > model->shape.capacity)
        x++;
    return x;
}

static void add(Model *model, uint64_t code, MdehKey key, uint32_t payload) {
    ModelRecord *place = model->records + place_of(model, code);
    memmove(place + 1, place, (size_t)(model->records + model->count - place) * sizeof *place);
    memcpy(place->record.values, key.values, sizeof key.values);
    place->code = code;
    place->record.payload = payload;
    model->count++;
}

static void drop(Model *model, uint64_t code) {
    ModelRecord *place = model->records + place_of(model, code);
    model->count--;
    memmove(place, place + 1, (size_t)(model->records + model->count - place) * sizeof *place);
}

MdehChangeResult model_insert(Model *model, MdehKey key, uint32_t payload) {
    MdehChangeResult result = {MDEH_ACCEPTED, 0, 0};
    if (!model_fits(&model->shape, key))
        result.number = MDEH_REFUSED_VALUE;
    else if (payload == 0)
        result.number = MDEH_REFUSED_PAYLOAD;
    else
        result.number = model_join(model, key, payload);
    if (result.number == MDEH_ACCEPTED)
        result.depth = model_depth(model, key);
    return result;
}

uint32_t model_join(Model *model, MdehKey key, uint32_t payload) {
    uint64_t code = model_code(&model->shape, key);
    Leaf found[MOST_RECORDS];
    if (is_stored(model, code))
        return MDEH_REFUSED_STORED;
    if (sharing(model, code, model->depth_limit) >= model->shape.capacity)
        return MDEH_REFUSED_DEPTH;
    add(model, code, key, payload);
    if (leaves(model, found) <= model->page_limit)
        return MDEH_ACCEPTED;
    drop(model, code);
    return MDEH_REFUSED_PAGES;
}

MdehChangeResult model_delete(Model *model, MdehKey key) {
    MdehChangeResult result = {MDEH_REFUSED_VALUE, 0, 0};
    uint64_t code = model_code(&model->shape, key);
    if (!model_fits(&model->shape, key))
        return result;
    result.number = is_stored(model, code) ? MDEH_ACCEPTED : MDEH_REFUSED_ABSENT;
    if (result.number == MDEH_ACCEPTED)
        drop(model, code);
    result.depth = model_depth(model, key);
    return result;
}

MdehLookupResult model_lookup(const Model *model, MdehKey key) {
    MdehLookupResult result = {MDEH_REFUSED_VALUE, 0, 0, 0, 0};
    uint64_t code = model_code(&model->shape, key);
    if (!model_fits(&model->shape, key))
        return result;
    result.number = is_stored(model, code) ? MDEH_ACCEPTED : MDEH_REFUSED_ABSENT;
    result.depth = model_depth(model, key);
    if (result.number == MDEH_ACCEPTED) {
        result.payload = model->records[place_of(model, code)].record.payload;
        result.reads = 1;
    }
    return result;
}

/* The number of a query: 8 before 3; the value of a free attribute is ignored. */
static uint32_t query_number(const MdehShape *shape, const MdehQuery *query) {
    uint32_t j, number = MDEH_ACCEPTED;
    for (j = 0; j < 4; j++) {
        if (query->given[j] && j >= shape->attributes)
            return MDEH_REFUSED_ATTRIBUTE;
        if (query->given[j] && !is_value(shape, j, query->values[j]))
            number = MDEH_REFUSED_VALUE;
    }
    return number;
}

static int matches(const MdehQuery *query, const MdehRecord *record) {
    uint32_t j;
    for (j = 0; j < 4; j++)
        if (query->given[j] && query->values[j] != record->values[j])
            return 0;
    return 1;
}

/* Whether a leaf's split bits agree with those wanted, where they are given. */
static int agrees(const Leaf *leaf, uint64_t given, uint64_t wanted) {
    return leaf->depth == 0 || ((leaf->code ^ wanted) & given) >> (64 - leaf->depth) == 0;
}

void model_put(uint8_t *place, const MdehRecord *record) {
    uint32_t j;
    for (j = 0; j < 12; j++)
        place[j] = (uint8_t)(j < 8 ? (uint32_t)record->values[j / 2] >> j % 2 * 8 : record->payload >> (j - 8) * 8);
}

/* Counts a record, and puts it into the output if it fits there. */
static void list(MdehQueryResult *result, const MdehRecord *record, uint8_t *out, size_t out_bytes) {
    if (result->total++ < out_bytes / MDEH_RECORD_BYTES)
        model_put(out + MDEH_RECORD_BYTES * result->written++, record);
}

MdehQueryResult model_query(const Model *model, MdehQuery query, uint8_t *out, size_t out_bytes) {
    MdehQueryResult result = {MDEH_ACCEPTED, 0, 0, 0, 0};
    uint32_t given[4], wanted[4], j;
    Leaf found[MOST_RECORDS];
    size_t i, count = leaves(model, found);
    result.number = query_number(&model->shape, &query);
    if (result.number != MDEH_ACCEPTED)
        return result;
    for (i = 0; i < model->count; i++)
        if (matches(&query, &model->records[i].record))
            list(&result, &model->records[i].record, out, out_bytes);
    for (j = 0; j < 4; j++) {
        given[j] = query.given[j] ? UINT32_MAX : 0;
        wanted[j] = query.given[j] ? model_encoding(&model->shape, j, query.values[j]) : 0;
    }
    for (i = 0; i < count; i++)
        result.reads += agrees(found + i, code_of(&model->shape, given), code_of(&model->shape, wanted));
    return result;
}

/* The number of a range: 8 whatever the ends, then 3 for any end, then 10; the ends of a free attribute are ignored. */
static uint32_t range_number(const MdehShape *shape, const MdehRange *range) {
    uint32_t j;
    int outside = 0, falls = 0;
    for (j = 0; j < 4; j++) {
        if (!range->given[j])
            continue;
        if (j >= shape->attributes)
            return MDEH_REFUSED_ATTRIBUTE;
        outside |= !is_value(shape, j, range->low[j]) || !is_value(shape, j, range->high[j]);
        falls |= range->low[j] > range->high[j];
    }
    return outside ? MDEH_REFUSED_VALUE : falls ? MDEH_REFUSED_INTERVAL : MDEH_ACCEPTED;
}

/* Whether the box from the values `low` to the values `high` has a point of the range. */
static int meets(const MdehRange *range, const int32_t *low, const int32_t *high) {
    uint32_t j;
    for (j = 0; j < 4; j++)
        if (range->given[j] && (high[j] < range->low[j] || low[j] > range->high[j]))
            return 0;
    return 1;
}

/* Whether a leaf's box of values meets the range's: the lowest have 0 for each further split bit, the highest 1. */
static int leaf_meets(const MdehShape *shape, const MdehRange *range, const Leaf *leaf) {
    uint64_t further = UINT64_MAX >> leaf->depth;
    MdehKey low = key_of(shape, leaf->code & ~further), high = key_of(shape, leaf->code | further);
    return meets(range, low.values, high.values);
}

MdehQueryResult model_range(const Model *model, MdehRange range, uint8_t *out, size_t out_bytes) {
    MdehQueryResult result = {MDEH_ACCEPTED, 0, 0, 0, 0};
    Leaf found[MOST_RECORDS];
    size_t i, count = leaves(model, found);
    result.number = range_number(&model->shape, &range);
    if (result.number != MDEH_ACCEPTED)
        return result;
    for (i = 0; i < model->count; i++)
        if (meets(&range, model->records[i].record.values, model->records[i].record.values))
            list(&result, &model->records[i].record, out, out_bytes);
    for (i = 0; i < count; i++)
        result.reads += leaf_meets(&model->shape, &range, found + i);
    return result;
}
