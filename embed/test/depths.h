/* How deep keys lie: what insert, delete and lookup give beside their numbers, on stores whose leaves are known. */
#ifndef DEPTHS_H
#define DEPTHS_H

#include "../mdeh.h"

/* Whether a change gave this number and this depth, and no attribute. */
static inline int gave(MdehChangeResult found, uint32_t number, uint32_t depth) {
    return found.number == number && found.attribute == 0 && found.depth == depth;
}

/* Whether a lookup was refused with this number and gave this depth, and nothing else. */
static inline int missed(MdehLookupResult found, uint32_t number, uint32_t depth) {
    return found.number == number && found.attribute == 0 && found.depth == depth && found.payload == 0
        && found.reads == 0;
}

/* The four records of document 01's table, one after the other, and the deletes back. */
void depths_of_the_table(void);

/* Keys that share many first split bits: a division of several levels, and the depth afterwards. */
void divided_levels(void);

/* A delete that joins all these levels at once, and the depth afterwards. */
void joined_levels(void);

/* Absent keys in a leaf with records and in each empty leaf beside the divided regions. */
void absent_keys(void);

/* Every key of a store without records, and of one that has lost its records. */
void empty_stores(void);

/* Each other number on a store whose leaves lie deep: no depth beside it. */
void numbers_without_depths(void);

/* Another depth in the words of a leaf: it is told, or given as it stands there. */
void damaged_depths(void);

#endif
