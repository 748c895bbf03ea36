#include "layout.h"

#include "model.h"

#include <string.h>

/* The index vector of a key's cell in a directory of depth t. */
static MdehIndex index_of(const MdehShape *shape, MdehKey key, uint32_t t) {
    MdehIndex index = {{0, 0, 0, 0}};
    uint32_t place;
    for (place = 0; t > 0; place++) {
        uint32_t k = place / 4, j = place % 4;
        if (j < shape->attributes && k < shape->widths[j]) {
            uint32_t encoding = model_encoding(shape, j, key.values[j]);
            index.indices[j] |= (uint64_t)(encoding >> (shape->widths[j] - 1 - k) & 1) << k;
            t--;
        }
    }
    return index;
}

size_t layout_cell(const uint32_t *state, MdehKey key) {
    MdehShape shape = mdeh_shape(state);
    return (size_t)mdeh_address(shape, index_of(&shape, key, state[8])).address;
}

uint32_t layout_depth(const uint32_t *state, const uint32_t *directory, MdehKey key, uint32_t number) {
    if (number != MDEH_ACCEPTED && number != MDEH_REFUSED_ABSENT)
        return 0;
    return directory[layout_cell(state, key)] >> 16 & 0xf;
}

size_t layout_record(const uint32_t *state, const uint32_t *directory, const uint8_t *pages, MdehKey key) {
    MdehShape shape = mdeh_shape(state);
    uint32_t word = directory[layout_cell(state, key)];
    size_t page, i;
    if ((word & 0xffff) == 0)
        return 0;
    page = ((word & 0xffff) - 1) * MDEH_PAGE_BYTES(shape.capacity);
    for (i = 0; i < (size_t)(pages[page] | pages[page + 1] << 8); i++) {
        MdehRecord record = mdeh_record(shape, pages + page + 2, i);
        if (memcmp(record.values, key.values, sizeof key.values) == 0)
            return page + 2 + MDEH_RECORD_BYTES * i;
    }
    return 0;
}
