/* What has to hold, memory lent to calls between guards that no call may change, random numbers that a seed fixes. */
#ifndef LENT_H
#define LENT_H

#include <stddef.h>
#include <stdint.h>

/* The seed of the list that runs, and how many conditions have held. */
extern uint64_t first_seed;
extern unsigned long compared;

/* Ends the test, with the condition, its place and the seed, unless it holds. */
#define HOLDS(condition) holds(condition, #condition, __FILE__, __LINE__)
void holds(int condition, const char *text, const char *file, int line);

/* A slice inside of a longer piece of memory, and a copy of all as it was lent. */
typedef struct {
    uint8_t *all, *before;
    size_t start, bytes;
} Lent;

/* The next number, of 64 bits (xorshift64*). */
uint64_t number64(uint64_t *seed);

/* A number below `count`, which is not 0. */
uint32_t below(uint64_t *seed, uint32_t count);

/* Random bytes; words are aligned, bytes begin anywhere. */
Lent lend_words(uint64_t *seed, size_t words);
Lent lend_bytes(uint64_t *seed, size_t bytes);
void take_back(Lent *lent);

/* The slice. */
uint32_t *words_of(const Lent *lent);
uint8_t *bytes_of(const Lent *lent);

/* Whether the guards, and the slice from this byte on, are as they were lent. */
int unchanged_from(const Lent *lent, size_t byte);

/* Lends the slice as it is now. */
void lend_again(Lent *lent);

#endif
