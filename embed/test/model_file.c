#include "model_file.h"

#include <string.h>

/* The letters, as numbers. */
static const uint8_t letters[4] = {0x4d, 0x44, 0x45, 0x48};

static void put32(uint8_t *place, size_t number) {
    int i;
    for (i = 0; i < 4; i++)
        place[i] = (uint8_t)(number >> 8 * i);
}

static uint64_t number32(const uint8_t *place) {
    return place[0] + 256 * (place[1] + 256 * (place[2] + 256 * (uint64_t)place[3]));
}

size_t model_save(const Model *model, uint8_t *out) {
    const MdehShape *shape = &model->shape;
    size_t i, size = 12 * model->count + 24;
    uint8_t *end = out + 12 * model->count;
    uint32_t j;
    for (i = 0; i < model->count; i++)
        model_put(out + 12 * i, &model->records[i].record);
    memset(end, 0, 8);
    end[0] = (uint8_t)shape->attributes;
    for (j = 0; j < shape->attributes; j++) {
        end[1 + j] = (uint8_t)shape->widths[j];
        end[6] |= (uint8_t)((shape->signs >> j & 1) << j);
    }
    end[5] = (uint8_t)shape->capacity;
    memcpy(end + 8, letters, 4);
    put32(end + 12, 24);
    put32(end + 16, size);
    put32(end + 20, model->count);
    return size;
}

/* Whether the trailer has the letters, and the distances of its count and of the file's length. */
static int is_whole(const uint8_t *file, size_t size) {
    const uint8_t *trailer;
    if (size < 24)
        return 0;
    trailer = file + size - 16;
    return memcmp(trailer, letters, 4) == 0 && number32(trailer + 4) == 24 && number32(trailer + 8) == size
        && size == 24 + 12 * number32(trailer + 12);
}

/* Whether the last byte of the shape, the unused widths and the marks without an attribute are 0. */
static int is_plain(const MdehShape *shape, uint8_t last) {
    uint32_t j;
    for (j = 0; j < 8; j++)
        if (j >= shape->attributes && ((shape->signs >> j & 1) || (j < 4 && shape->widths[j] != 0)))
            return 0;
    return last == 0;
}

/* The key of record i: a field of 16 bits has a sign where its attribute is marked. */
static MdehKey key_at(const MdehShape *shape, const uint8_t *file, size_t i) {
    MdehKey key;
    uint32_t j;
    for (j = 0; j < 4; j++) {
        const uint8_t *field = file + 12 * i + 2 * j;
        int marked = j < shape->attributes && (shape->signs >> j & 1);
        key.values[j] = field[0] + 256 * (marked && field[1] >= 128 ? field[1] - 256 : field[1]);
    }
    return key;
}

/* Whether the records' values are within their bounds, and their split bits strictly rise. */
static int is_rising(const MdehShape *shape, const uint8_t *file, size_t count) {
    size_t i;
    for (i = 0; i < count; i++) {
        MdehKey key = key_at(shape, file, i);
        if (!model_fits(shape, key))
            return 0;
        if (i > 0 && model_code(shape, key_at(shape, file, i - 1)) >= model_code(shape, key))
            return 0;
    }
    return 1;
}

MdehMakeResult model_load(Model *model, const uint8_t *file, size_t size, size_t words, size_t bytes) {
    MdehMakeResult made = {MDEH_REFUSED_FILE, 0};
    const uint8_t *end;
    MdehShape shape;
    size_t i, count;
    uint32_t j;
    if (!is_whole(file, size))
        return made;
    end = file + size - 24;
    count = (size - 24) / 12;
    shape.attributes = end[0];
    for (j = 0; j < 4; j++)
        shape.widths[j] = end[1 + j];
    shape.capacity = end[5];
    shape.signs = end[6];
    made = model_shape(&shape);
    if (made.number != MDEH_ACCEPTED)
        return made;
    if (!is_plain(&shape, end[7]) || !is_rising(&shape, file, count)) {
        made.number = MDEH_REFUSED_CONTENT;
        return made;
    }
    made = model_fresh(model, shape, words, bytes);
    for (i = 0; made.number == MDEH_ACCEPTED && i < count; i++)
        made.number = model_join(model, key_at(&shape, file, i), (uint32_t)number32(file + 12 * i + 8));
    return made;
}
