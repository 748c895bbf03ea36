/* A store read as the header's layouts say. */
#ifndef LAYOUT_H
#define LAYOUT_H

#include "../mdeh.h"

/* The byte of the pages at which the record of a key begins that fits the widths, or 0 for a key that is not stored. Of
   the library it takes the address map alone. */
size_t layout_record(const uint32_t *state, const uint32_t *directory, const uint8_t *pages, MdehKey key);

/* The place of the directory word of such a key's cell. */
size_t layout_cell(const uint32_t *state, MdehKey key);

/* The depth that stands beside a number: with 0 and 5 the one in that word, with any other 0. */
uint32_t layout_depth(const uint32_t *state, const uint32_t *directory, MdehKey key, uint32_t number);

#endif
