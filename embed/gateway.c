/*
 * A gateway's records: which display code came from which container slot under which image release, and how often.
 * Fills a store, says how deep its keys lie, checks it, asks for code 30, then for its releases from 400 to 479, and
 * prints the slots and releases.
 */
#include "mdeh.h"

#include <inttypes.h>
#include <stdio.h>

#define CAPACITY 4
#define WORDS 1024
#define PAGES 24

/* codes are below 2^7, slots below 2^5, releases below 2^9; none is signed */
static const MdehShape shape = {3, {7, 5, 9, 0}, CAPACITY, 0};

/* The lent memory, kept as long as the store is used. */
static uint32_t state[MDEH_STATE_WORDS];
static uint32_t directory[WORDS];
static uint8_t pages[PAGES * MDEH_PAGE_BYTES(CAPACITY)];

/* The greatest depth of a key. */
static uint32_t deepest;

static const struct {
    int32_t code, slot, release;
    uint32_t count;
} seen[] = {
    {10, 1, 412, 1},  {10, 2, 412, 1},  {10, 5, 431, 1},  {10, 9, 431, 2},  {10, 17, 479, 1}, {12, 5, 431, 3},
    {20, 1, 412, 96}, {20, 2, 412, 88}, {20, 5, 431, 41}, {20, 9, 431, 40}, {20, 17, 479, 7}, {30, 2, 405, 6},
    {30, 2, 412, 2},  {30, 5, 431, 14}, {30, 9, 398, 1},  {30, 9, 431, 3},  {30, 17, 479, 1}, {31, 9, 431, 1},
    {41, 2, 405, 2},  {41, 5, 431, 1},  {41, 17, 479, 4}, {77, 5, 398, 1},
};

/* Says why a call is refused, as the program's status. */
static int refused(const char *call, uint32_t number, uint32_t attribute) {
    fprintf(stderr, "%s: %s\n", call, mdeh_reason_of(number, attribute));
    return 1;
}

/* Stores what was seen. */
static MdehChangeResult fill(void) {
    size_t i;
    MdehMakeResult made = mdeh_fresh(shape, state, MDEH_STATE_WORDS, directory, WORDS, pages, sizeof pages);
    MdehChangeResult inserted = {made.number, made.attribute, 0};
    for (i = 0; inserted.number == MDEH_ACCEPTED && i < sizeof seen / sizeof *seen; i++) {
        MdehKey key = {{seen[i].code, seen[i].slot, seen[i].release, 0}};
        inserted = mdeh_insert(state, MDEH_STATE_WORDS, directory, WORDS, pages, sizeof pages, key, seen[i].count);
        if (inserted.depth > deepest)
            deepest = inserted.depth;
    }
    return inserted;
}

/* People act on the list: check, then ask. A store whose memory was damaged is filled again from what was seen. */
static MdehChangeResult ready(void) {
    static const MdehChangeResult accepted = {MDEH_ACCEPTED, 0, 0};
    MdehCheckResult found = mdeh_check(state, MDEH_STATE_WORDS, directory, WORDS, pages, sizeof pages);
    return found.number == MDEH_ACCEPTED && found.sound ? accepted : fill();
}

/* Prints what a list has of slots and releases, or why it was refused, as the program's status. */
static int show(const char *asked, MdehQueryResult found, const uint8_t *out) {
    uint64_t i;
    if (found.number != MDEH_ACCEPTED)
        return refused(asked, found.number, found.attribute);
    printf("%s: %" PRIu64 " records, %" PRIu64 " pages read\n", asked, found.total, found.reads);
    for (i = 0; i < found.written; i++) {
        MdehRecord record = mdeh_record(shape, out, i);
        printf("slot %" PRId32 ", release %" PRId32 ", count %" PRIu32 "\n", record.values[1], record.values[2],
               record.payload);
    }
    if (found.written < found.total)
        printf("and %" PRIu64 " more\n", found.total - found.written);
    return 0;
}

int main(void) {
    static const MdehQuery code = {{1, 0, 0, 0}, {30, 0, 0, 0}};
    static const MdehRange releases = {{1, 0, 1, 0}, {30, 0, 400, 0}, {30, 0, 479, 0}};
    uint8_t out[16 * MDEH_RECORD_BYTES];
    MdehQueryResult found;
    int status;
    MdehChangeResult filled = fill();
    if (filled.number == MDEH_ACCEPTED)
        filled = ready();
    if (filled.number != MDEH_ACCEPTED)
        return refused("fill", filled.number, filled.attribute);
    /* whoever sizes the gateway: near L, word 7 of the state, a longer directory is due */
    printf("filled: depths up to %" PRIu32 " of %" PRIu32 "\n", deepest, state[7]);
    found = mdeh_query(state, MDEH_STATE_WORDS, directory, WORDS, pages, sizeof pages, code, out, sizeof out);
    status = show("code 30", found, out);
    if (status != 0)
        return status;
    found = mdeh_range(state, MDEH_STATE_WORDS, directory, WORDS, pages, sizeof pages, releases, out, sizeof out);
    return show("code 30, releases 400 to 479", found, out);
}
