/*
 * 20,000 random rows of a gateway in one store, sized as the header says (SIZING): releases start at 0, all values are
 * spread over the least widths, a spare attribute evens out the leaves, and mdeh_room gives the memory. Asks for code
 * 30 and releases 400 to 479, a range of the spread values, and prints the values of the first records.
 */
#include "mdeh.h"

#include <inttypes.h>
#include <stdio.h>
#include <stdlib.h>

#define ROWS 20000

/* The attributes: how many values each has, the least one, and the least width for so many. */
enum { CODE, SLOT, RELEASE, SPARE };
static const uint32_t counts[3] = {100, 24, 82};
static const uint32_t least[3] = {0, 0, 398};
static const MdehShape shape = {4, {7, 5, 7, 2}, 16, 0};

/* The lent memory, kept as long as the store is used. */
static uint32_t state[MDEH_STATE_WORDS], *directory;
static uint8_t *pages;
static MdehRoom room;

/* The spread value of attribute j, and the value that it stands for. */
static int32_t spread(int j, uint32_t value) {
    return (int32_t)mdeh_spread(value - least[j], counts[j], shape.widths[j]);
}

static uint32_t value_of(int j, const MdehRecord *record) {
    return least[j] + mdeh_rank((uint32_t)record->values[j], counts[j], shape.widths[j]);
}

/* The key of a row: spread values, and the sum of the ranks modulo 4. */
static MdehKey key_of(const uint32_t row[3]) {
    MdehKey key = {{0, 0, 0, 0}};
    uint32_t ranks = 0;
    int j;
    for (j = CODE; j <= RELEASE; j++) {
        key.values[j] = spread(j, row[j]);
        ranks += row[j] - least[j];
    }
    key.values[SPARE] = (int32_t)(ranks % 4);
    return key;
}

/* A random number below a count that is not 0, the same ones on every run (xorshift64). */
static uint32_t below(uint32_t count) {
    static uint64_t seed = 2463534242;
    seed ^= seed << 13;
    seed ^= seed >> 7;
    seed ^= seed << 17;
    return (uint32_t)(seed >> 33) % count;
}

/* Stores random rows, each with its number as payload, and tells how many are refused. */
static int fill(void) {
    uint32_t row, stored = 0, again = 0, others = 0;
    for (row = 1; row <= ROWS; row++) {
        uint32_t values[3], number;
        int j;
        for (j = CODE; j <= RELEASE; j++)
            values[j] = least[j] + below(counts[j]);
        number = mdeh_insert(state, MDEH_STATE_WORDS, directory, room.words, pages, room.bytes, key_of(values), row)
                     .number;
        stored += number == MDEH_ACCEPTED;
        again += number == MDEH_REFUSED_STORED;
        others += number != MDEH_ACCEPTED && number != MDEH_REFUSED_STORED;
    }
    printf("%" PRIu32 " stored, %" PRIu32 " refused as stored already, %" PRIu32 " refused otherwise\n", stored, again,
           others);
    return others != 0;
}

/* Asks how many records a range has, then for all of them, and prints the first three. */
static int ask(MdehRange range) {
    MdehQueryResult found =
        mdeh_range(state, MDEH_STATE_WORDS, directory, room.words, pages, room.bytes, range, NULL, 0);
    size_t out_bytes = (size_t)found.total * MDEH_RECORD_BYTES, i;
    uint8_t *out = malloc(out_bytes + 1);
    if (!out)
        return 1;
    found = mdeh_range(state, MDEH_STATE_WORDS, directory, room.words, pages, room.bytes, range, out, out_bytes);
    printf("%" PRIu64 " records, %" PRIu64 " pages read\n", found.total, found.reads);
    for (i = 0; i < found.written && i < 3; i++) {
        MdehRecord record = mdeh_record(shape, out, i);
        printf("code %" PRIu32 ", slot %" PRIu32 ", release %" PRIu32 ", row %" PRIu32 "\n", value_of(CODE, &record),
               value_of(SLOT, &record), value_of(RELEASE, &record), record.payload);
    }
    free(out);
    return found.number != MDEH_ACCEPTED;
}

int main(void) {
    MdehRange range = {{1, 0, 1, 0}, {0, 0, 0, 0}, {0, 0, 0, 0}};
    int status;
    room = mdeh_room(shape, ROWS);
    directory = malloc(room.words * sizeof *directory);
    pages = malloc(room.bytes);
    if (!directory || !pages)
        return 1;
    printf("%zu words, %zu bytes of pages; keys drawn at random %s\n", room.words, room.bytes,
           room.holds ? "fit" : "may not all fit");
    if (mdeh_fresh(shape, state, MDEH_STATE_WORDS, directory, room.words, pages, room.bytes).number != MDEH_ACCEPTED)
        return 1;
    status = fill();
    range.low[CODE] = range.high[CODE] = spread(CODE, 30);
    range.low[RELEASE] = spread(RELEASE, 400);
    range.high[RELEASE] = spread(RELEASE, 479);
    printf("code 30, releases 400 to 479: ");
    status |= ask(range);
    free(directory);
    free(pages);
    return status;
}
