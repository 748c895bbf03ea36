/*
 * Records carried from a gateway to the workshop: which display code came from which container slot under which image
 * release, and how often. The gateway saves its store and writes the bytes to the file that the argument names; the
 * workshop reads them, loads them into memory of its own, adds a record and asks for code 30. The library writes and
 * reads no file: that is the host's.
 */
#include "mdeh.h"

#include <inttypes.h>
#include <stdio.h>

#define CAPACITY 4
#define RECORDS 12

/* codes are below 2^7, slots below 2^5, releases below 2^9; none is signed */
static const MdehShape shape = {3, {7, 5, 9, 0}, CAPACITY, 0};

static const struct {
    int32_t code, slot, release;
    uint32_t count;
} seen[RECORDS] = {
    {10, 9, 431, 2},  {12, 5, 431, 3}, {20, 1, 412, 96}, {20, 17, 479, 7}, {30, 2, 405, 6},  {30, 2, 412, 2},
    {30, 5, 431, 14}, {30, 9, 398, 1}, {30, 9, 431, 3},  {31, 9, 431, 1},  {41, 17, 479, 4}, {77, 5, 398, 1},
};

/* One record more, for which the gateway has no room. */
static const MdehKey more = {{30, 10, 431, 0}};

/* A file's bytes on their way between a store and the disk. */
static uint8_t file[MDEH_FILE_BYTES(RECORDS)];

/* Says why a call is refused, as the program's status. */
static int refused(const char *call, uint32_t number, uint32_t attribute) {
    fprintf(stderr, "%s: %s\n", call, mdeh_reason_of(number, attribute));
    return 1;
}

/* The gateway: a store in little memory, and its file. */
static int gateway(const char *path) {
    static uint32_t state[MDEH_STATE_WORDS], directory[128];
    static uint8_t pages[5 * MDEH_PAGE_BYTES(CAPACITY)];
    MdehSaveResult saved;
    FILE *stream;
    size_t i;
    MdehMakeResult made = mdeh_fresh(shape, state, MDEH_STATE_WORDS, directory, 128, pages, sizeof pages);
    uint32_t number = made.number;
    for (i = 0; number == MDEH_ACCEPTED && i < RECORDS; i++) {
        MdehKey key = {{seen[i].code, seen[i].slot, seen[i].release, 0}};
        number = mdeh_insert(state, MDEH_STATE_WORDS, directory, 128, pages, sizeof pages, key, seen[i].count).number;
    }
    if (number != MDEH_ACCEPTED)
        return refused("fill", number, made.attribute);
    number = mdeh_insert(state, MDEH_STATE_WORDS, directory, 128, pages, sizeof pages, more, 1).number;
    printf("gateway: one record more: %s\n", mdeh_reason(number));
    saved = mdeh_save(state, MDEH_STATE_WORDS, directory, 128, pages, sizeof pages, file, sizeof file);
    if (saved.number != MDEH_ACCEPTED)
        return refused("save", saved.number, saved.attribute);
    stream = fopen(path, "wb");
    if (!stream || fwrite(file, 1, (size_t)saved.size, stream) != saved.size || fclose(stream) != 0) {
        perror(path);
        return 1;
    }
    printf("gateway: saved %" PRIu64 " bytes\n", saved.size);
    return 0;
}

/* The workshop: the file in more memory, and a list of code 30. */
static int workshop(const char *path) {
    static uint32_t state[MDEH_STATE_WORDS], directory[MDEH_MOST_WORDS];
    static uint8_t pages[100 * MDEH_PAGE_BYTES(CAPACITY)];
    static const MdehQuery all, code = {{1, 0, 0, 0}, {30, 0, 0, 0}};
    uint8_t out[RECORDS * MDEH_RECORD_BYTES];
    MdehQueryResult found;
    FILE *stream = fopen(path, "rb");
    size_t size = stream ? fread(file, 1, sizeof file, stream) : 0;
    uint64_t i;
    uint32_t number;
    MdehMakeResult loaded;
    if (!stream || ferror(stream) || fclose(stream) != 0) {
        perror(path);
        return 1;
    }
    /* a file that was cut off is refused, and the memory left as it is */
    loaded = mdeh_load(file, size - 1, state, MDEH_STATE_WORDS, directory, MDEH_MOST_WORDS, pages, sizeof pages);
    printf("workshop: one byte less: %s\n", mdeh_reason_of(loaded.number, loaded.attribute));
    loaded = mdeh_load(file, size, state, MDEH_STATE_WORDS, directory, MDEH_MOST_WORDS, pages, sizeof pages);
    if (loaded.number != MDEH_ACCEPTED)
        return refused("load", loaded.number, loaded.attribute);
    found = mdeh_query(state, MDEH_STATE_WORDS, directory, MDEH_MOST_WORDS, pages, sizeof pages, all, NULL, 0);
    printf("workshop: loaded %" PRIu64 " records\n", found.total);
    number = mdeh_insert(state, MDEH_STATE_WORDS, directory, MDEH_MOST_WORDS, pages, sizeof pages, more, 1).number;
    printf("workshop: one record more: %s\n", mdeh_reason(number));
    found = mdeh_query(state, MDEH_STATE_WORDS, directory, MDEH_MOST_WORDS, pages, sizeof pages, code, out, sizeof out);
    if (found.number != MDEH_ACCEPTED)
        return refused("code 30", found.number, found.attribute);
    for (i = 0; i < found.written; i++) {
        MdehRecord record = mdeh_record(mdeh_shape(state), out, i);
        printf("slot %" PRId32 ", release %" PRId32 ", count %" PRIu32 "\n", record.values[1], record.values[2],
               record.payload);
    }
    return 0;
}

int main(int count, char **arguments) {
    int status;
    if (count != 2) {
        fprintf(stderr, "usage: carry FILE\n");
        return 2;
    }
    status = gateway(arguments[1]);
    return status != 0 ? status : workshop(arguments[1]);
}
