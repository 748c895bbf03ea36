/*
 * Random lists of all calls through the C interface, each answer compared with the plain model's, and calls on the same
 * store damaged. Guards stand round every lent slice. Every number has to come. A failure prints what does not hold and
 * the seed of its list; given as an argument, that seed runs its list alone.
 */
#include "depths.h"
#include "edges.h"
#include "files.h"
#include "layout.h"
#include "lent.h"
#include "model.h"
#include "model_file.h"
#include "shapes.h"
#include "signs.h"
#include "sizing.h"

#include <stdio.h>
#include <stdlib.h>
#include <string.h>

/* A lent store, the model beside it, and the random numbers of its list. */
typedef struct {
    Lent state, directory, pages;
    Model model;
    uint64_t seed;
} Run;

/* How often each number came. */
static unsigned long came[MDEH_REFUSED_CAPACITY + 1];

/* The three slices of a store. */
#define STORE(run) SLICE((run)->state), SLICE((run)->directory), bytes_of(&(run)->pages), (run)->pages.bytes
#define SLICE(lent) words_of(&(lent)), (lent).bytes / 4

static int unchanged(const Run *run) {
    return unchanged_from(&run->state, 0) && unchanged_from(&run->directory, 0) && unchanged_from(&run->pages, 0);
}

static void keep(Run *run) {
    lend_again(&run->state);
    lend_again(&run->directory);
    lend_again(&run->pages);
}

static void take_store_back(Run *run) {
    take_back(&run->state);
    take_back(&run->directory);
    take_back(&run->pages);
}

/* A shape, with any marks in one of two, one in sixteen with a number outside its bounds. */
static MdehShape random_shape(uint64_t *seed) {
    MdehShape shape;
    uint32_t j, narrow = below(seed, 2);
    shape.attributes = 1 + below(seed, 4);
    for (j = 0; j < 4; j++)
        shape.widths[j] = 1 + below(seed, narrow ? 3 : 16);
    shape.capacity = 1 + below(seed, narrow ? 3 : 16);
    shape.signs = below(seed, 2) ? (uint32_t)number64(seed) : 0;
    if (below(seed, 16) == 0) {
        uint32_t *numbers[6] = {&shape.attributes, &shape.capacity, shape.widths, shape.widths + 1, shape.widths + 2,
                                shape.widths + 3};
        uint32_t *changed = numbers[below(seed, 6)];
        *changed = below(seed, 2) ? 0 : 17 + (uint32_t)number64(seed) % 1000;
    }
    return shape;
}

/* A key: stored, next to a stored one, or random; one in sixteen has a bit changed that may be past a width. */
static MdehKey random_key(Run *run) {
    const MdehShape *shape = &run->model.shape;
    MdehKey key = {{0, 0, 0, 0}};
    uint32_t j, kind = below(&run->seed, 3);
    for (j = 0; j < shape->attributes; j++)
        key.values[j] = model_value(shape, j, below(&run->seed, (uint32_t)1 << shape->widths[j]));
    if (kind > 0 && run->model.count > 0) {
        size_t i = below(&run->seed, (uint32_t)run->model.count);
        uint32_t encoding;
        memcpy(key.values, run->model.records[i].record.values, sizeof key.values);
        j = below(&run->seed, shape->attributes);
        encoding = model_encoding(shape, j, key.values[j]) ^ (kind - 1) << below(&run->seed, shape->widths[j]);
        key.values[j] = model_value(shape, j, encoding);
    }
    if (below(&run->seed, 16) == 0) {
        j = below(&run->seed, 4);
        key.values[j] = (int32_t)((uint32_t)key.values[j] ^ (uint32_t)1 << below(&run->seed, 32));
    }
    return key;
}

/* Any payload, one in eight 0. */
static uint32_t random_payload(Run *run) {
    return below(&run->seed, 8) == 0 ? 0 : (uint32_t)number64(&run->seed);
}

/* Some attributes of a key are given, in any number but 0, and the others have any value. */
static MdehQuery random_query(Run *run) {
    MdehKey key = random_key(run);
    MdehQuery query;
    uint32_t j;
    for (j = 0; j < 4; j++) {
        int given = below(&run->seed, j < run->model.shape.attributes ? 3 : 40) == 0;
        query.given[j] = given ? 1 + below(&run->seed, UINT32_MAX) : 0;
        query.values[j] = given ? key.values[j] : (int32_t)number64(&run->seed);
    }
    return query;
}

/* Some attributes are given, in any number but 0: from one key's value to another's, with equal ends, or all values of
   the width; one interval in sixteen falls. The others have any ends. */
static MdehRange random_range(Run *run) {
    MdehKey one = random_key(run), other = random_key(run);
    MdehRange range;
    uint32_t j;
    for (j = 0; j < 4; j++) {
        int used = j < run->model.shape.attributes, given = below(&run->seed, used ? 2 : 40) == 0;
        uint32_t kind = below(&run->seed, 16);
        int32_t low = one.values[j], high = kind < 4 ? low : other.values[j];
        int swapped = (low > high) != (kind == 15);
        range.given[j] = given ? 1 + below(&run->seed, UINT32_MAX) : 0;
        range.low[j] = given ? (swapped ? high : low) : (int32_t)number64(&run->seed);
        range.high[j] = given ? (swapped ? low : high) : (int32_t)number64(&run->seed);
        if (given && used && kind == 4) {
            range.low[j] = model_least(&run->model.shape, j);
            range.high[j] = model_greatest(&run->model.shape, j);
        }
    }
    return range;
}

/* The bytes of the P pages. */
static size_t lent_pages(const Run *run) {
    return run->model.page_limit * MDEH_PAGE_BYTES(run->model.shape.capacity);
}

/* After a call that lists records: its counts, and its output whole, whose copy the model wrote. */
static void compare_listed(Run *run, Lent *out, MdehQueryResult found, MdehQueryResult model) {
    HOLDS(found.number == model.number && found.attribute == model.attribute);
    came[found.number]++;
    HOLDS(found.written == model.written && found.total == model.total && found.reads == model.reads);
    HOLDS(unchanged_from(out, 0));
    HOLDS(unchanged(run));
    take_back(out);
}

/* A range into an output of any bytes. */
static void compare_range(Run *run, MdehRange range, uint32_t out_bytes) {
    Lent out = lend_bytes(&run->seed, out_bytes);
    MdehQueryResult found = mdeh_range(STORE(run), range, bytes_of(&out), out_bytes);
    compare_listed(run, &out, found, model_range(&run->model, range, out.before + out.start, out_bytes));
}

/* A query into an output of any bytes, and the range with its values as equal ends: the same answer. */
static void compare_query(Run *run, MdehQuery query, uint32_t out_bytes) {
    Lent out = lend_bytes(&run->seed, out_bytes), again = lend_bytes(&run->seed, out_bytes);
    MdehQueryResult found = mdeh_query(STORE(run), query, bytes_of(&out), out_bytes);
    MdehRange range;
    memcpy(range.given, query.given, sizeof range.given);
    memcpy(range.low, query.values, sizeof range.low);
    memcpy(range.high, query.values, sizeof range.high);
    compare_listed(run, &out, found, model_query(&run->model, query, out.before + out.start, out_bytes));
    found = mdeh_range(STORE(run), range, bytes_of(&again), out_bytes);
    compare_listed(run, &again, found, model_query(&run->model, query, again.before + again.start, out_bytes));
}

/* Where a key's record begins in the pages, by the layouts; 0 for none. */
static size_t record_of(const Run *run, MdehKey key) {
    return layout_record(words_of(&run->state), words_of(&run->directory), bytes_of(&run->pages), key);
}

/* The depth that stands beside a number, by the layouts. */
static uint32_t depth_of(const Run *run, MdehKey key, uint32_t number) {
    return layout_depth(words_of(&run->state), words_of(&run->directory), key, number);
}

/* A lookup, and the record and the depth found by the layouts. */
static void compare_lookup(Run *run, MdehKey key) {
    MdehLookupResult found = mdeh_lookup(STORE(run), key), model = model_lookup(&run->model, key);
    HOLDS(found.number == model.number && found.payload == model.payload && found.reads == model.reads);
    HOLDS(found.attribute == model.attribute && found.depth == model.depth);
    came[found.number]++;
    HOLDS(unchanged(run));
    if (model.number != MDEH_REFUSED_VALUE) {
        size_t place = record_of(run, key);
        HOLDS(found.depth == depth_of(run, key, found.number));
        HOLDS((place > 0) == (model.number == MDEH_ACCEPTED));
        HOLDS(place == 0 || mdeh_record(run->model.shape, bytes_of(&run->pages) + place, 0).payload == model.payload);
    }
}

/* After a call that may change the store: its number, what never changes, a sound store that lists the model's set. */
static void compare_change(Run *run, uint32_t number, uint32_t wanted) {
    static const MdehQuery all = {{0, 0, 0, 0}, {0, 0, 0, 0}};
    MdehCheckResult check;
    HOLDS(number == wanted);
    came[number]++;
    HOLDS(number == MDEH_ACCEPTED || unchanged(run));
    if (number != MDEH_ACCEPTED)
        return;
    HOLDS(unchanged_from(&run->state, 4 * MDEH_STATE_WORDS));
    HOLDS(mdeh_shape(words_of(&run->state)).signs == run->model.shape.signs);
    HOLDS(unchanged_from(&run->directory, (size_t)4 << run->model.depth_limit));
    HOLDS(unchanged_from(&run->pages, lent_pages(run)));
    keep(run);
    check = mdeh_check(STORE(run));
    HOLDS(check.number == MDEH_ACCEPTED && check.attribute == 0 && check.sound == 1);
    compare_query(run, all, MDEH_RECORD_BYTES * (uint32_t)run->model.count + 5);
}

/* The same of a Fresh or a load, with the attribute. */
static void compare_made(Run *run, MdehMakeResult found, MdehMakeResult model) {
    HOLDS(found.attribute == model.attribute);
    compare_change(run, found.number, model.number);
}

/* The same of an insert or a delete of a key, with attribute and depth. */
static void compare_changed(Run *run, MdehKey key, MdehChangeResult found, MdehChangeResult model) {
    HOLDS(found.attribute == model.attribute);
    HOLDS(found.depth == model.depth && found.depth == depth_of(run, key, found.number));
    compare_change(run, found.number, model.number);
}

/* Moves the store into other memory, some words and bytes longer, as from a file, and gives it any marks past d. */
static void reopen(Run *run) {
    Run moved = *run;
    uint32_t past = (uint32_t)number64(&run->seed) << run->model.shape.attributes;
    moved.state = lend_words(&run->seed, run->state.bytes / 4 + below(&run->seed, 2));
    moved.directory = lend_words(&run->seed, run->directory.bytes / 4 + below(&run->seed, 5));
    moved.pages = lend_bytes(&run->seed, run->pages.bytes + below(&run->seed, 300));
    memcpy(words_of(&moved.state), words_of(&run->state), 4 * MDEH_STATE_WORDS);
    memcpy(words_of(&moved.directory), words_of(&run->directory), (size_t)4 << words_of(&run->state)[8]);
    memcpy(bytes_of(&moved.pages), bytes_of(&run->pages), lent_pages(run));
    moved.model.shape.signs ^= past;
    words_of(&moved.state)[MDEH_STATE_WORDS - 1] = moved.model.shape.signs;
    take_store_back(run);
    moved.seed = run->seed;
    *run = moved;
    compare_change(run, MDEH_ACCEPTED, MDEH_ACCEPTED);
}

/* The file of the store, one in four with a bit changed, in a longer output. */
static size_t save(Run *run, Lent *out) {
    static uint8_t file[MDEH_FILE_BYTES(MOST_RECORDS)];
    size_t size = model_save(&run->model, file);
    MdehSaveResult saved;
    *out = lend_bytes(&run->seed, size + below(&run->seed, 40));
    saved = mdeh_save(STORE(run), bytes_of(out), out->bytes);
    HOLDS(saved.number == MDEH_ACCEPTED && saved.attribute == 0 && saved.size == size);
    HOLDS(memcmp(bytes_of(out), file, size) == 0);
    HOLDS(unchanged_from(out, size) && unchanged(run));
    if (below(&run->seed, 4) == 0)
        bytes_of(out)[below(&run->seed, (uint32_t)size)] ^= (uint8_t)(1 << below(&run->seed, 8));
    lend_again(out);
    return size;
}

/* Loads the file of the store into other memory of any lengths. Where it is accepted, the calls go on there. */
static void carry(Run *run) {
    Run moved = *run;
    Lent out;
    size_t size = save(run, &out);
    MdehMakeResult loaded, wanted;
    int whole;
    moved.state = lend_words(&run->seed, MDEH_STATE_WORDS - 1 + below(&run->seed, 8));
    moved.directory = lend_words(&run->seed, below(&run->seed, 400));
    moved.pages = lend_bytes(&run->seed, below(&run->seed, 6000));
    moved.seed = run->seed;
    whole = moved.state.bytes >= 4 * MDEH_STATE_WORDS;
    wanted = model_load(&moved.model, bytes_of(&out), size, whole ? moved.directory.bytes / 4 : 0,
                        whole ? moved.pages.bytes : 0);
    loaded = mdeh_load(bytes_of(&out), size, STORE(&moved));
    HOLDS(unchanged_from(&out, 0));
    take_back(&out);
    compare_made(&moved, loaded, wanted);
    run->seed = moved.seed;
    if (loaded.number != MDEH_ACCEPTED) {
        take_store_back(&moved);
        return;
    }
    take_store_back(run);
    *run = moved;
}

/* Gives a stored record the payload 0, as a store of an earlier version may hold it. */
static void zero_payload(Run *run) {
    ModelRecord *changed = run->model.records + below(&run->seed, (uint32_t)run->model.count);
    MdehKey key;
    memcpy(key.values, changed->record.values, sizeof key.values);
    memset(bytes_of(&run->pages) + record_of(run, key) + 8, 0, 4);
    changed->record.payload = 0;
    keep(run);
    compare_change(run, MDEH_ACCEPTED, MDEH_ACCEPTED);
    compare_lookup(run, key);
}

/* One call of any kind, or a change of the memory. */
static void call(Run *run) {
    uint32_t kind = below(&run->seed, 25), payload = random_payload(run);
    MdehKey key = random_key(run);
    if (kind < 9) {
        compare_changed(run, key, mdeh_insert(STORE(run), key, payload), model_insert(&run->model, key, payload));
    } else if (kind < 14) {
        compare_changed(run, key, mdeh_delete(STORE(run), key), model_delete(&run->model, key));
    } else if (kind < 16) {
        compare_lookup(run, key);
    } else if (kind < 19) {
        MdehQuery query = random_query(run);
        compare_query(run, query, below(&run->seed, 200));
    } else if (kind < 22) {
        MdehRange range = random_range(run);
        compare_range(run, range, below(&run->seed, 200));
    } else if (kind < 23) {
        reopen(run);
    } else if (kind < 24) {
        carry(run);
    } else if (run->model.count > 0) {
        zero_payload(run);
    }
}

/* Whether a call on a damaged store gave what is amiss in its shape; where nothing is, a number up to `most`. */
static int told(const Run *run, uint32_t number, uint32_t attribute, uint32_t most) {
    MdehShape shape = mdeh_shape(words_of(&run->state));
    MdehMakeResult amiss = model_shape(&shape);
    int right = amiss.number == MDEH_ACCEPTED ? number != MDEH_REFUSED_SHAPE && number <= most : number == amiss.number;
    return right && attribute == amiss.attribute;
}

/* After a change on a damaged store: a number of the table, the depth in the word of the key's cell, a refused call
   changes nothing, the guards stay. */
static void compare_damaged(Run *run, MdehKey key, MdehChangeResult found) {
    HOLDS(told(run, found.number, found.attribute, MDEH_REFUSED_PAYLOAD));
    came[found.number]++;
    HOLDS(found.depth == depth_of(run, key, found.number));
    HOLDS(found.number == MDEH_ACCEPTED || unchanged(run));
    HOLDS(unchanged_from(&run->state, 4 * MDEH_STATE_WORDS) && unchanged_from(&run->directory, run->directory.bytes));
    HOLDS(unchanged_from(&run->pages, run->pages.bytes));
    keep(run);
}

/* All calls on the store with a word or byte more of it spoilt. */
static void calls_on_damage(Run *run) {
    MdehKey key = random_key(run);
    MdehQuery query = random_query(run);
    MdehRange range = random_range(run);
    uint8_t out[100];
    MdehQueryResult found;
    MdehLookupResult looked;
    MdehChangeResult inserted;
    MdehSaveResult saved;
    MdehCheckResult check;
    uint32_t payload = random_payload(run), early;
    uint32_t small = below(&run->seed, 5), word = below(&run->seed, 2) ? small : (uint32_t)number64(&run->seed);
    switch (below(&run->seed, 3)) {
    case 0: words_of(&run->state)[below(&run->seed, MDEH_STATE_WORDS)] = word; break;
    case 1: words_of(&run->directory)[below(&run->seed, 1u << run->model.depth_limit)] ^= 1u << word % 20; break;
    default: bytes_of(&run->pages)[below(&run->seed, (uint32_t)lent_pages(run))] = (uint8_t)word;
    }
    keep(run);
    found = mdeh_query(STORE(run), query, out, sizeof out);
    HOLDS(told(run, found.number, found.attribute, MDEH_REFUSED_UNSOUND));
    HOLDS(found.written <= found.total && found.written <= sizeof out / 12);
    found = mdeh_range(STORE(run), range, out, sizeof out);
    HOLDS(told(run, found.number, found.attribute, MDEH_REFUSED_INTERVAL));
    HOLDS(found.written <= found.total && found.written <= sizeof out / 12);
    saved = mdeh_save(STORE(run), out, sizeof out);
    HOLDS(told(run, saved.number, saved.attribute, MDEH_REFUSED_UNSOUND) && saved.size <= sizeof out);
    HOLDS(saved.number == MDEH_ACCEPTED ? saved.size >= 24 : saved.size == 0);
    looked = mdeh_lookup(STORE(run), key);
    HOLDS(told(run, looked.number, looked.attribute, MDEH_REFUSED_UNSOUND));
    HOLDS(looked.depth == depth_of(run, key, looked.number));
    check = mdeh_check(STORE(run));
    HOLDS(told(run, check.number, check.attribute, MDEH_REFUSED_MEMORY));
    HOLDS(unchanged(run));
    inserted = mdeh_insert(STORE(run), key, payload);
    compare_damaged(run, key, inserted);
    /* 1, 14, 15, 2 and 3 are those of lookup; then a payload of 0 gives 11 whatever the store holds, and no other
       does */
    early = looked.number;
    if (payload == 0 && (early == MDEH_ACCEPTED || (early > MDEH_REFUSED_VALUE && early <= MDEH_REFUSED_UNSOUND)))
        early = MDEH_REFUSED_PAYLOAD;
    HOLDS(payload == 0 ? inserted.number == early : inserted.number != MDEH_REFUSED_PAYLOAD);
    compare_damaged(run, key, mdeh_delete(STORE(run), key));
}

/* Fresh in random memory, and the list of calls. */
static void list(uint64_t seed) {
    Run run;
    MdehShape shape;
    MdehMakeResult made, wanted;
    uint32_t turn;
    int whole;
    first_seed = run.seed = seed;
    shape = random_shape(&run.seed);
    run.state = lend_words(&run.seed, MDEH_STATE_WORDS - 1 + below(&run.seed, 8));
    run.directory = lend_words(&run.seed, below(&run.seed, below(&run.seed, 8) ? 300 : 6000));
    run.pages = lend_bytes(&run.seed, below(&run.seed, 5000));
    whole = run.state.bytes >= 4 * MDEH_STATE_WORDS;
    wanted = model_fresh(&run.model, shape, whole ? run.directory.bytes / 4 : 0, whole ? run.pages.bytes : 0);
    made = mdeh_fresh(shape, STORE(&run));
    compare_made(&run, made, wanted);
    for (turn = 0; made.number == MDEH_ACCEPTED && turn < 300; turn++)
        call(&run);
    for (turn = 0; made.number == MDEH_ACCEPTED && turn < 20; turn++)
        calls_on_damage(&run);
    take_store_back(&run);
}

int main(int count, char **arguments) {
    uint64_t seed;
    uint32_t number;
    if (count > 1) {
        list(strtoull(arguments[1], NULL, 0));
        return 0;
    }
    empty_slices();
    ranges();
    payloads();
    stored_zero();
    addresses();
    depths_of_the_table();
    divided_levels();
    joined_levels();
    absent_keys();
    empty_stores();
    numbers_without_depths();
    damaged_depths();
    signed_bounds();
    signed_order();
    signed_records();
    signed_twins();
    marks_past();
    signed_fields();
    file_layout();
    file_orders();
    file_outputs();
    file_changes();
    file_lengths();
    file_counts();
    file_memory();
    file_bytes();
    file_damage();
    shapes_made();
    shapes_of_states();
    shapes_of_files();
    shapes_of_addresses();
    shape_reasons();
    version_text();
    room_values();
    room_bounds();
    room_fills();
    certain_rooms();
    spread_ranks();
    reversed_values();
    gateway_rows();
    replaced_payloads();
    for (seed = 1; seed <= 1500; seed++)
        list(seed * 0x9e3779b97f4a7c15);
    for (number = MDEH_ACCEPTED; number <= MDEH_REFUSED_CAPACITY; number++)
        HOLDS(came[number] > 0);
    printf("%lu comparisons\n", compared);
    return 0;
}
