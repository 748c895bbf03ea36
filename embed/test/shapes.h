/* What is amiss in a shape: 1, then 14 with its attribute, then 15, before 2, wherever a shape comes in. */
#ifndef SHAPES_H
#define SHAPES_H

#include "../mdeh.h"

/* Whether Fresh or a load gave this number, and no attribute. */
static inline int made(MdehMakeResult found, uint32_t number) {
    return found.number == number && found.attribute == 0;
}

/* Fresh of all combinations of counts, widths and capacities, in bounds and out, in enough memory and in too little. */
void shapes_made(void);

/* Every call on a state with such a shape. */
void shapes_of_states(void);

/* Files with such a shape, also with a broken trailer, with a stray byte, and in too little memory. */
void shapes_of_files(void);

/* The address map of such a shape, also with an index and an address out of bounds. */
void shapes_of_addresses(void);

/* What the numbers say in words, and which attribute. */
void shape_reasons(void);

#endif
