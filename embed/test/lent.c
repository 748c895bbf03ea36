#include "lent.h"

#include <inttypes.h>
#include <stdio.h>
#include <stdlib.h>
#include <string.h>

/* Bytes on each side, at least. */
#define GUARD 32

uint64_t first_seed;
unsigned long compared;

void holds(int condition, const char *text, const char *file, int line) {
    compared++;
    if (condition)
        return;
    printf("%s:%d: seed %#" PRIx64 ": does not hold: %s\n", file, line, first_seed, text);
    exit(1);
}

uint64_t number64(uint64_t *seed) {
    *seed ^= *seed >> 12;
    *seed ^= *seed << 25;
    *seed ^= *seed >> 27;
    return *seed * 0x2545f4914f6cdd1d;
}

uint32_t below(uint64_t *seed, uint32_t count) {
    return (uint32_t)(number64(seed) >> 32) % count;
}

/* Random bytes that begin so many past the guard. */
static Lent lend(uint64_t *seed, size_t start, size_t bytes) {
    Lent lent;
    size_t i;
    lent.start = GUARD + start;
    lent.bytes = bytes;
    lent.all = malloc(lent.start + bytes + GUARD);
    lent.before = malloc(lent.start + bytes + GUARD);
    if (!lent.all || !lent.before) {
        fputs("no memory\n", stderr);
        exit(2);
    }
    for (i = 0; i < lent.start + bytes + GUARD; i++)
        lent.all[i] = (uint8_t)(number64(seed) >> 56);
    lend_again(&lent);
    return lent;
}

Lent lend_words(uint64_t *seed, size_t words) {
    return lend(seed, 4 * below(seed, 4), 4 * words);
}

Lent lend_bytes(uint64_t *seed, size_t bytes) {
    return lend(seed, below(seed, 8), bytes);
}

void take_back(Lent *lent) {
    free(lent->all);
    free(lent->before);
}

uint32_t *words_of(const Lent *lent) {
    return (uint32_t *)(void *)(lent->all + lent->start);
}

uint8_t *bytes_of(const Lent *lent) {
    return lent->all + lent->start;
}

int unchanged_from(const Lent *lent, size_t byte) {
    size_t from = lent->start + (byte < lent->bytes ? byte : lent->bytes);
    return memcmp(lent->all, lent->before, lent->start) == 0
        && memcmp(lent->all + from, lent->before + from, lent->start + lent->bytes + GUARD - from) == 0;
}

void lend_again(Lent *lent) {
    memcpy(lent->before, lent->all, lent->start + lent->bytes + GUARD);
}
