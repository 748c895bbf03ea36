/* The plain model: a list of records in split order, scanned in full for every answer; nothing of the library. */
#ifndef MODEL_H
#define MODEL_H

#include "../mdeh.h"

/* More records than a list of the test ever has. */
#define MOST_RECORDS 1024

/* A record beside its split bits, the first one highest. */
typedef struct {
    uint64_t code;
    MdehRecord record;
} ModelRecord;

typedef struct {
    MdehShape shape;
    uint32_t page_limit, depth_limit;
    size_t count;
    ModelRecord records[MOST_RECORDS];
} Model;

/* What is amiss in a shape: 1 for the attribute count, then 14 with the lowest attribute whose width is out of bounds,
   then 15 for the capacity; 0 for nothing. */
MdehMakeResult model_shape(const MdehShape *shape);

/* The sum of the widths in use. */
uint32_t model_bits(const MdehShape *shape);

/* The least and the greatest value of attribute j, 0 for an unused one. */
int32_t model_least(const MdehShape *shape, uint32_t j);
int32_t model_greatest(const MdehShape *shape, uint32_t j);

/* The encoding of a value of attribute j, and the value that has an encoding. */
uint32_t model_encoding(const MdehShape *shape, uint32_t j, int32_t value);
int32_t model_value(const MdehShape *shape, uint32_t j, uint32_t encoding);

/* Whether each number is a value of its attribute, and that of an unused one 0. */
int model_fits(const MdehShape *shape, MdehKey key);

/* The split bits of a key, the first one highest. */
uint64_t model_code(const MdehShape *shape, MdehKey key);

/* The bytes of a record, its values in two's complement. */
void model_put(uint8_t *place, const MdehRecord *record);

/* What Fresh gives; with 0 the model has no records, and its shape no marks but those of attributes. */
MdehMakeResult model_fresh(Model *model, MdehShape shape, size_t words, size_t bytes);

/* How deep a key that fits lies: the least x such that at most as many stored keys as the capacity says begin with its
   first x split bits. */
uint32_t model_depth(const Model *model, MdehKey key);

MdehChangeResult model_insert(Model *model, MdehKey key, uint32_t payload);

/* An insert of a key that fits, with any payload. */
uint32_t model_join(Model *model, MdehKey key, uint32_t payload);

MdehChangeResult model_delete(Model *model, MdehKey key);
MdehLookupResult model_lookup(const Model *model, MdehKey key);
MdehQueryResult model_query(const Model *model, MdehQuery query, uint8_t *out, size_t out_bytes);
MdehQueryResult model_range(const Model *model, MdehRange range, uint8_t *out, size_t out_bytes);

#endif
