/*
 * A multidimensional extendible hash store in memory that its host lends: the C interface.
 *
 * Records have a key of one to four values and a payload of 32 bits. A query gives some of the values, a range the
 * intervals of some, and both leave the others free. The library is libmdeh.a: code for x86-64-v2 (System V) that calls
 * memcpy, memmove and memset alone. C99 or later, or C++. `make` proves and builds it, `make install` installs it with
 * libmdeh.so, the same code; then `gcc host.c $(pkg-config --cflags --libs mdeh)` links a host. It takes libmdeh.so;
 * -l:libmdeh.a, in place of -lmdeh, takes the archive. With a PREFIX outside of the system's folders pkg-config needs
 * PKG_CONFIG_PATH=PREFIX/lib/pkgconfig, and a host of libmdeh.so a run path, -Wl,-rpath,PREFIX/lib.
 *
 * SLICES. A lent slice is two arguments, a pointer and how many elements it has. The memory is the host's, of any kind:
 * it is lent for the call, and no call keeps a pointer, allocates or frees.
 *   - Nothing past the lengths is read or written, whatever the slices hold: random words are refused or answered too.
 *   - The slices of one call must not overlap, and nothing else may write them until it returns.
 *   - uint32_t slices are aligned as uint32_t, byte slices in any way.
 *   - A slice of length 0 may have any pointer, NULL too.
 *
 * STORE. Three slices make up a store: its state (MDEH_STATE_WORDS words), its directory (words) and its pages (bytes).
 * mdeh_fresh writes the state and fixes two limits from the lengths, P pages and the depth L:
 *   P is the smaller of 4,096 and the whole pages lent, a page having MDEH_PAGE_BYTES(capacity) bytes;
 *   L is the smallest of 12, the sum of the widths, and the base-2 logarithm of the directory's length, rounded down.
 * Later calls need at least 2^L words and P pages, and may be lent more. Directory words past the first 2^L, bytes past
 * the P pages and words past those of the state are never changed. The host changes none of a store itself.
 *
 * NUMBERS. Every call returns a number, first in a struct: 0 for an accepted call, otherwise the reason for its refusal
 * (enum below; in words: mdeh_reason_of). A refused call has changed nothing, and the values beside its number are 0,
 * but for the attribute beside 14 and the depth beside 5. Where several reasons hold, the first in the order that
 * stands at the call is given.
 *
 * SHAPES. Three numbers tell what to correct in a shape. Every call looks for them in this order, before 2, in the
 * shape that it is given or in the state that is passed in, and mdeh_load, after 12, in the file:
 *   1   the attribute count is outside 1 to 4
 *   14  the width of an attribute is outside 1 to 16: `attribute` is that attribute, counted from 0, the lowest where
 *       there are several; widths[attribute] is to be corrected
 *   15  the page capacity is outside 1 to 16
 * Once it is corrected, the next call tells the next fault: of {3, {9, 17, 99}, 0} 14 with attribute 1, then 14 with
 * attribute 2, then 15. Widths past the attribute count are ignored: {2, {9, 7, 99}, 4} is in bounds. From a call on a
 * store these numbers say that the state is none that mdeh_fresh or mdeh_load made: its words were overwritten, or
 * others are lent. Fewer words than MDEH_STATE_WORDS show no shape and give 1; mdeh_fresh and mdeh_load, which write
 * them, give 2.
 *
 * DEPTHS. Every key falls in one leaf, stored or not: that of all keys with its first x split bits (LAYOUTS), x being
 * the leaf's depth, from 0 for the only leaf of a small store to L. mdeh_lookup gives the depth of the key's leaf,
 * mdeh_insert and mdeh_delete that of its leaf afterwards, once leaves are divided or joined. With 5 lookup and delete
 * give that of the leaf in which the absent key falls, with records or without. Beside any other number the depth is 0
 * and says nothing. On an unsound store it is the depth in the word of the key's cell.
 *
 * SIZING. Leaves are divided by the first L split bits of the keys, the highest bits of each value's width in turn.
 * Where these do not vary, 6 comes early in any memory. So choose widths and values first:
 *   widths    the least: 2^width at or just above the number of different values. Codes 0 to 99 take 7 bits; in 16 bits
 *             their first nine are 0.
 *   bias      take the least value off: releases 398 to 479 become 0 to 81, in 7 bits and not 9. Sparse values become
 *             their ranks in a sorted list. Values below 0 need no bias: mark the attribute (SIGNED).
 *   spread    mdeh_spread lays `count` ranks evenly over 2^width values, mdeh_rank takes them back. Order is kept: the
 *             range of ranks low to high is that of their spread values.
 *   reversed  mdeh_reversed turns the bits of a value round, for values that cluster or whose ends are not known. Such
 *             an attribute is asked by equality alone: a range of values is none of reversed ones.
 *   spare     where 6 still comes, add a last one of width 2 to fewer than four attributes: the sum of the ranks,
 *             before they are spread, modulo 4. It is a part of each key, and free in every query. Not where all values
 *             are reversed: their first split bits give it, and it takes the place of others.
 * Then mdeh_room gives directory words and page bytes for n records, and says whether keys drawn at random hold in
 * them: with b = 16, and 17 split bits or more, up to 12,004 do. On the average they take n / (0.68 b) pages. Certain
 * of any keys, W being the sum of the widths:
 *   - with 2^L pages 7 never comes, so it does not with 4,096;
 *   - while 2^(W-L) <= b, 6 never comes, so it does not with W <= 16, b = 16 and 4,096 words.
 * Of 20,000 random rows of a gateway (codes 0 to 99, slots 0 to 23, releases 398 to 479; some 19,000 different keys), a
 * store with b = 16 and 4,096 words holds before the first 6 (medians of 1,000 fills; embed/sizing.c is the fifth):
 *   widths 16, 16, 16                           16 records
 *   widths 7, 5, 9                           2,952 records
 *   widths 7, 5, 7, releases less 398       10,490 records
 *   the same, spread or reversed            all, in 65 of 100 fills
 *   the same, spread, a spare attribute     all, in 98 of 100 fills
 *   two stores, of even and odd slots       all, in 5,000 of 5,000 fills (slot / 2: 12 values; widths 7, 4, 7, spread)
 * A full leaf is divided by the next insert into it, unless its keys and the new one agree in their first L split bits,
 * as at depth L they do. So depths near L tell that 6 is near; lesser ones do not tell that it is far.
 *   on 6      choose values as above, b = 16, and more words: twice as many make L one greater, up to 12 and W; then
 *             several stores, by an attribute or a digest of the key
 *   on 7      more pages, or a larger b
 * Longer slices take the records by a file (RECIPES); another shape has them inserted again, into a fresh store.
 *
 * SOUND. A store is sound if it shows a set of records as the layouts below say. mdeh_fresh and mdeh_load make sound
 * stores, and every call leaves a sound store sound. On an unsound one (memory that something else wrote) a call still
 * ends and keeps to the slices, but gives 9 or answers from what it meets; an accepted insert or delete leaves all
 * words and pages but those of its key's leaf and of the leaves joined with it as they were. mdeh_check tells sound
 * stores from others.
 *
 * CHECK, THEN ASK. A call reads a part of the store, and tests of it the words and each page's count, first and last
 * record; on damaged memory a list with number 0 may still lack records or show wrong ones. Before people act on a
 * list, ask mdeh_check, then mdeh_query or mdeh_range, and let nothing write in between. Check reads the whole store,
 * some 15 ns a record: a third of a millisecond for 20,000; what it does not tell stands under KEEPING. Where it says
 * no, or a call gives 9, the memory was damaged: do not act on it; load the last saved file, or make a fresh store, and
 * insert the event records again.
 *
 * PAYLOADS. Hosts read a payload of 0 as "no log line", so mdeh_insert refuses it with 11: payloads start at 1. A store
 * that an earlier version filled may hold payloads of 0. It stays sound, and they are looked up, listed, deleted, saved
 * and loaded as others are; to be inserted into another store, such a record needs another payload. The payload of a
 * refused lookup is 0 too: its number tells the two apart.
 *
 * SIGNED. A shape may mark attributes as signed: bit j of `signs`, MDEH_SIGNED(j), marks attribute j. Marks past the
 * attribute count are ignored, and mdeh_fresh clears them. {2, {6, 10}, 16, MDEH_SIGNED(1)} has a drive's number from 0
 * to 63 and its position offset from -512 to 511.
 *   values     of a marked attribute of width w run from -2^(w-1) to 2^(w-1) - 1, of any other from 0 to 2^w - 1. Those
 *              outside are refused with 3, so every value below 0 of an attribute that is not marked.
 *   encodings  are the value plus 2^(w-1) where marked, otherwise the value. Split order, leaves, queries and ranges go
 *              by them: that of -1 comes straight before that of 0, and an interval may begin below 0 and end above it.
 *   fields     in pages and outputs hold the value in 16-bit two's complement; mdeh_record reads it back.
 * Indices and addresses are not values: they have no sign, whatever the marks.
 *
 * KEEPING. A store is its state, its directory and its pages, as they are; it has no pointers, and may be copied and
 * moved. Words of the directory from 2^T on need not be kept (T is state word 8). To open it again, read the three into
 * slices that are as long as before or longer and ask mdeh_check: number 0 and sound 1. It does not tell a changed
 * payload or an older copy; add a sum of your own where the medium may alter bytes. A state that an earlier version
 * kept has no marks and one word less: a word of 0 behind it makes it a state. To carry records elsewhere, save a file.
 * Slices may be a mapped file, but not the only copy. An accepted change is many writes, to words, pages and state, in
 * no promised order. Where a process ends in the middle of one, some of them are done; where the machine stops, any
 * writes of earlier calls may be missing on the medium too. The three may then show no set, which mdeh_check tells. Or
 * they show a set that the store never held, without one of its records, or with a payload that is half written: that
 * is sound, and no call tells it. To guard, save a file, write it under another name beside the last one, sync it
 * (fsync), rename it over the last one and sync the folder. A start loads the file of that name, which is whole, and
 * the host inserts what came after it.
 *
 * RECIPES.
 *   replace a payload   mdeh_delete, then mdeh_insert with the other payload. On a sound store, once the delete is
 *                       accepted, the insert of a payload that is not 0 is too: the key is absent (4), and with it the
 *                       keys are as before (6, 7). Between the two calls a lookup gives 5.
 *   grow a store        mdeh_save, then mdeh_load into longer slices; P and L are fixed by their lengths, and the shape
 *                       stays. The shorter slices are the host's again once the load is accepted.
 *   size an output      a query or a range with an output of 0 bytes gives `total`; total * MDEH_RECORD_BYTES bytes are
 *                       room for all its records.
 *
 * FILES. mdeh_save writes the records of a store as the bytes of a file, and mdeh_load makes a store of these bytes, in
 * any slices. To write and read them is the host's: no call does input or output. A file of n records has
 * MDEH_FILE_BYTES(n) bytes, n being the total of a query with nothing given, and is the same on every machine:
 *   offset     bytes   meaning
 *   0          12n     the records in split order, each as in a page
 *   12n        1       attribute count d
 *   12n + 1    4       widths of attributes 0 to 3, 0 past d
 *   12n + 5    1       page capacity b
 *   12n + 6    1       marks of signed attributes, bit j for attribute j, 0 past d
 *   12n + 7    1       0
 *   12n + 8    4       the letters M, D, E, H
 *   12n + 12   4       24: from the end of the file back to the first byte of the shape
 *   12n + 16   4       24 + 12n: from the end back to the first byte of the file
 *   12n + 20   4       n
 * Two sound stores of one shape save equal bytes exactly when they hold equal sets of records, whatever their slices
 * and the order of their calls, and saving after an accepted load gives the same bytes. Read from its end, a file tells
 * its length: where it stands behind other bytes, hand mdeh_load its own alone. The numbers of mdeh_load, in order:
 *   12  fewer than 24 bytes, other letters, or distances that are not those of n and of the file's length
 *   1   attribute count outside 1 to 4; then 14 with its attribute for a width, 15 for the capacity outside 1 to 16
 *   13  last shape byte, unused width or mark past d not 0; value outside its bounds, unused value not 0; records that
 *       do not strictly rise in split order
 *   2   as of mdeh_fresh: fewer words than a state has, no directory word, no whole page
 *   6   or 7, at the first record that an insert into a store of those before it would refuse so
 * Payloads are not looked at: a payload of 0 loads. P and L are fixed by the lengths of the new slices, as by
 * mdeh_fresh. A file has no sum: a changed payload, or records that are gone together with their count, are not told.
 *
 * THREADS. There is no hidden state. Calls on different stores may run at once; on one store, lookups, checks, and
 * queries, ranges and saves with outputs of their own may, while mdeh_fresh, mdeh_load, mdeh_insert and mdeh_delete
 * need it alone. A call takes up to 32 KiB of stack (measured), never a signal, a lock or a system call.
 *
 * LAYOUTS. Bit 0 is the least significant; numbers of several bytes are little-endian.
 *   state      word 0 attribute count d; 1-4 widths (mdeh_fresh writes 0 past d; those past d are ignored); 5 page
 *              capacity b; 6 P; 7 L; 8 directory depth T; 9-21 how many leaves there are at depths 0 to 12; 22 (the
 *              last) marks of signed attributes, bit j for attribute j, past d as widths are. A leaf is a part of the
 *              key space with at most b records.
 *   directory  the first 2^T words are in use, each for one cell: bits 0-15 the page number plus one, or 0 for a leaf
 *              without records, bits 16-19 the leaf's depth, the others 0. A leaf of depth x has 2^(T-x) cells, all
 *              with one word. mdeh_address gives a cell's place from its index vector. That of a key's cell has for
 *              each attribute the highest bits of its encoding, as many as the first T split bits have of it, in
 *              reverse: the highest bit counts 1, the next 2, and so on.
 *   page       bytes 0-1 the record count, 0 for a free page; then the records, in split order.
 *   record     bytes 0-7 four values of 16 bits, in two's complement where marked, unused ones 0; bytes 8-11 the
 *              payload. Past the width, a field's bits are as the highest within it where marked, and 0 elsewhere: a
 *              page with a field of another form is unsound.
 *   order      the split bits of a key are the highest bit of each encoding in turn, then the next of each; a used-up
 *              attribute is passed over. Two bits each of encodings 2 and 1 give 1, 0, 0, 1. Split order compares keys
 *              at their first differing split bit, 0 before 1.
 */
#ifndef MDEH_H
#define MDEH_H

#include <stddef.h>
#include <stdint.h>

#ifdef __cplusplus
extern "C" {
#endif

/* The version of this header and of its library, as numbers and as text. */
#define MDEH_VERSION_MAJOR 0
#define MDEH_VERSION_MINOR 2
#define MDEH_VERSION_PATCH 0
#define MDEH_VERSION "0.2.0"

/* The words of a state. */
#define MDEH_STATE_WORDS 23

/* The bytes of a record in an output, a file or a page. */
#define MDEH_RECORD_BYTES 12

/* The bytes of a page that holds up to `capacity` records. */
#define MDEH_PAGE_BYTES(capacity) (2 + MDEH_RECORD_BYTES * (size_t)(capacity))

/* The bytes of a file of n records (FILES). */
#define MDEH_FILE_BYTES(n) (24 + MDEH_RECORD_BYTES * (size_t)(n))

/* A store has use for so many directory words and pages at most, and holds so many records. */
#define MDEH_MOST_WORDS 4096
#define MDEH_MOST_PAGES 4096
#define MDEH_MOST_RECORDS 65536

/* A number that is a value of no attribute: calls refuse it with 3. */
#define MDEH_NO_VALUE UINT32_C(65536)

/* What a number says. */
enum {
    MDEH_ACCEPTED = 0,          /* the call did what it was asked */
    MDEH_REFUSED_SHAPE = 1,     /* attribute count outside 1 to 4, also that of a state or a file; all but fresh and
                                   load: fewer words than a state has, which show no shape */
    MDEH_REFUSED_MEMORY = 2,    /* fresh, load: fewer words than a state has, no directory word, no whole page; later:
                                   fewer than 2^L words or P pages; save: an output that is shorter than the file */
    MDEH_REFUSED_VALUE = 3,     /* value or end of an interval outside its attribute's bounds, index of 2^width or more,
                                   address past the last, unused value not 0 */
    MDEH_REFUSED_STORED = 4,    /* insert: the key is stored already */
    MDEH_REFUSED_ABSENT = 5,    /* lookup, delete: the key is not stored; the depth of the leaf in which it falls stands
                                   beside it (DEPTHS) */
    MDEH_REFUSED_DEPTH = 6,     /* insert: `capacity` stored keys agree with this one in their first L split bits; load:
                                   so of some record and those before it */
    MDEH_REFUSED_PAGES = 7,     /* insert, load: the records would need more than P pages */
    MDEH_REFUSED_ATTRIBUTE = 8, /* query, range: an attribute is given that the shape does not have */
    MDEH_REFUSED_UNSOUND = 9,   /* the store is not sound, and the call met it: rebuild it from the event records */
    MDEH_REFUSED_INTERVAL = 10, /* range: the low end of an interval is above its high end */
    MDEH_REFUSED_PAYLOAD = 11,  /* insert: the payload is 0, which hosts read as "no log line" */
    MDEH_REFUSED_FILE = 12,     /* load: the bytes are no whole file: too few, other letters, distances or length */
    MDEH_REFUSED_CONTENT = 13,  /* load: a stray byte in the shape, a value outside its bounds, records out of order */
    MDEH_REFUSED_WIDTH = 14,    /* width of an attribute outside 1 to 16, also in a state or a file; the lowest such
                                   attribute stands beside it (SHAPES) */
    MDEH_REFUSED_CAPACITY = 15  /* page capacity outside 1 to 16, also that of a state or a file */
};

/* What records look like. In bounds: 1 to 4 attributes, widths of 1 to 16 bits, a capacity of 1 to 16 records (SHAPES).
   {3, {7, 5, 9}, 16} marks no attribute. */
typedef struct {
    uint32_t attributes;
    uint32_t widths[4]; /* those past `attributes` are ignored */
    uint32_t capacity;
    uint32_t signs; /* bit j marks attribute j as signed (SIGNED); those past `attributes` are ignored */
} MdehShape;

/* The mark of attribute j, from 0 to 3, in a shape's signs. */
#define MDEH_SIGNED(j) (UINT32_C(1) << (j))

/* A value for each attribute, 0 for an unused one: below 2^width and not below 0; where it is marked, below 2^(width-1)
   and not below -2^(width-1). */
typedef struct {
    int32_t values[4];
} MdehKey;

/* A partial-match query: attribute j is to have values[j] where given[j] is not 0, and is free where it is 0. */
typedef struct {
    uint32_t given[4];
    int32_t values[4]; /* ignored where free */
} MdehQuery;

/* A range: attribute j is to have a value from low[j] to high[j], both included, where given[j] is not 0, and is free
   where it is 0. Equal ends give a single value. */
typedef struct {
    uint32_t given[4];
    int32_t low[4];  /* ignored where free */
    int32_t high[4]; /* ignored where free */
} MdehRange;

/* An index for each attribute: a cell of the directory; 0 for an unused attribute. */
typedef struct {
    uint64_t indices[4];
} MdehIndex;

/* Of mdeh_fresh and mdeh_load. */
typedef struct {
    uint32_t number;
    uint32_t attribute; /* with 14: the attribute whose width is out of bounds; otherwise 0 */
} MdehMakeResult;

typedef struct {
    uint32_t number;
    uint32_t attribute; /* with 14: the attribute whose width is out of bounds; otherwise 0 */
    uint32_t depth;     /* of the key's leaf afterwards; with 5 that in which the absent key falls; otherwise 0 */
} MdehChangeResult;

typedef struct {
    uint32_t number;
    uint32_t attribute; /* with 14: the attribute whose width is out of bounds; otherwise 0 */
    uint32_t payload;   /* of the key's record; 0 may be stored (PAYLOADS) */
    uint32_t reads;     /* pages read: 1 */
    uint32_t depth;     /* of the key's leaf; with 5 of the leaf in which the absent key falls; otherwise 0 */
} MdehLookupResult;

typedef struct {
    uint32_t number;
    uint32_t attribute; /* with 14: the attribute whose width is out of bounds; otherwise 0 */
    uint64_t written;   /* records in the output */
    uint64_t total;     /* records that match: more than written where the output is short */
    uint64_t reads;     /* pages read */
} MdehQueryResult;

typedef struct {
    uint32_t number;
    uint32_t attribute; /* with 14: the attribute whose width is out of bounds; otherwise 0 */
    uint32_t sound;     /* 1 for a sound store, 0 for any other */
} MdehCheckResult;

typedef struct {
    uint32_t number;
    uint32_t attribute; /* with 14: the attribute whose width is out of bounds; otherwise 0 */
    uint64_t size;      /* bytes of the file */
} MdehSaveResult;

typedef struct {
    uint32_t number;
    uint32_t attribute; /* with 14: the attribute whose width is out of bounds; otherwise 0 */
    uint64_t address;
} MdehAddressResult;

typedef struct {
    uint32_t number;
    uint32_t attribute; /* with 14: the attribute whose width is out of bounds; otherwise 0 */
    MdehIndex index;
} MdehIndexResult;

/* Makes a store without records, whatever the slices held: writes the words of the state, directory word 0 and the
   count of each of the P pages. Refused with 1, 14, 15, 2. */
MdehMakeResult mdeh_fresh(MdehShape shape, uint32_t *state, size_t state_words, uint32_t *directory, size_t words,
                          uint8_t *pages, size_t bytes);

/* Adds a record, and gives the depth of its leaf afterwards. Refused with 1, 14, 15, 2, 3, 11, 4, 6, 7, 9: 11 for a
   payload of 0, whatever the directory and pages hold, also where the key is stored already or has no room. */
MdehChangeResult mdeh_insert(uint32_t *state, size_t state_words, uint32_t *directory, size_t words,
                             uint8_t *pages, size_t bytes, MdehKey key, uint32_t payload);

/* Removes the record of a key, and gives the depth of the key's leaf afterwards. Refused with 1, 14, 15, 2, 3, 5, 9:
   5 with a depth too. */
MdehChangeResult mdeh_delete(uint32_t *state, size_t state_words, uint32_t *directory, size_t words,
                             uint8_t *pages, size_t bytes, MdehKey key);

/* The payload of a key's record, and the depth of its leaf. Writes nothing. Refused with 1, 14, 15, 2, 3, 5, 9:
   5 with a depth too. */
MdehLookupResult mdeh_lookup(const uint32_t *state, size_t state_words, const uint32_t *directory, size_t words,
                             const uint8_t *pages, size_t bytes, MdehKey key);

/* Writes the matching records into the output, in split order, while whole ones fit; leaves its other bytes and the
   store as they are. A short output is no refusal. Refused with 1, 14, 15, 2, 8, 3, 9. */
MdehQueryResult mdeh_query(const uint32_t *state, size_t state_words, const uint32_t *directory, size_t words,
                           const uint8_t *pages, size_t bytes, MdehQuery query, uint8_t *out, size_t out_bytes);

/* The same for a range: the records whose values all lie in their intervals. Reads the non-empty leaves whose box of
   values, that of all keys with their split bits, meets the range's: with equal ends as many pages as the query, in
   general up to all in use. Refused with 1, 14, 15, 2, 8, 3, 10, 9: 8 whatever the ends are, 10 where no end gives
   3. */
MdehQueryResult mdeh_range(const uint32_t *state, size_t state_words, const uint32_t *directory, size_t words,
                           const uint8_t *pages, size_t bytes, MdehRange range, uint8_t *out, size_t out_bytes);

/* Whether the slices hold a sound store: to be asked before people act on a list. Reads all of it, writes nothing.
   Refused with 1, 14, 15, 2. */
MdehCheckResult mdeh_check(const uint32_t *state, size_t state_words, const uint32_t *directory, size_t words,
                           const uint8_t *pages, size_t bytes);

/* Writes the file of the store's records into the output, from its first byte on, and says how many bytes it has;
   leaves the bytes behind it and the store as they are. Refused with 1, 14, 15, 2, 9, then with 2 for an output that is
   shorter than the file, which one of MDEH_FILE_BYTES(MDEH_MOST_RECORDS) bytes never is; the output is then as it
   was. */
MdehSaveResult mdeh_save(const uint32_t *state, size_t state_words, const uint32_t *directory, size_t words,
                         const uint8_t *pages, size_t bytes, uint8_t *out, size_t out_bytes);

/* Makes a store of a file's shape and records, whatever the slices held: all its bytes are the file's. Refused with 12,
   1, 14, 15, 13, 2, then with 6 or 7 at the first record that meets one (FILES); the slices are then as they were. */
MdehMakeResult mdeh_load(const uint8_t *file, size_t file_bytes, uint32_t *state, size_t state_words,
                         uint32_t *directory, size_t words, uint8_t *pages, size_t bytes);

/* The directory address of an index vector, below 2 to the sum of the widths; the same at every size of the directory
   and whatever the marks. Refused with 1, 14, 15, 3. */
MdehAddressResult mdeh_address(MdehShape shape, MdehIndex index);

/* The index vector at a directory address. Refused with 1, 14, 15, 3. */
MdehIndexResult mdeh_index(MdehShape shape, uint64_t address);

/* Memory for records of a shape. */
typedef struct {
    size_t words;   /* of the directory */
    size_t bytes;   /* of the pages */
    uint32_t holds; /* 1 if keys drawn at random fit, but for one fill of 1,000; otherwise 0 */
} MdehRoom;

/* Whether depth L is deep enough for n records with `bits` split bits: one page takes them, a cell has no more keys than
   a page takes, or keys drawn at random meet 6 in less than one fill of 1,000. The expected number of choices of b + 1 of them that
   share a cell is at most 2^L * (n / 2^L)^(b+1) / (b+1)!. A part of mdeh_room: depth <= 12, bits <= 64. */
static inline int mdeh_room_deep(uint32_t depth, uint32_t bits, uint32_t capacity, uint32_t records) {
    double cells = (double)(UINT32_C(1) << depth), refused = 1000 * cells;
    uint32_t i;
    if (records <= capacity || (bits - depth <= 15 && UINT32_C(1) << (bits - depth) <= capacity))
        return 1;
    for (i = 1; i <= capacity + 1; i++)
        refused *= (double)records / ((double)i * cells);
    return refused <= 1;
}

/* The memory for n records of a shape (SIZING): the least directory that is deep enough, or the longest one; pages that
   take the records half full, and 8 more, at most one for each record and each word. Where holds is 0, the shape has
   fewer keys than n, or none of its directories is deep enough for keys drawn at random. A shape out of bounds: all
   0. */
static inline MdehRoom mdeh_room(MdehShape shape, uint32_t records) {
    MdehRoom room = {0, 0, 0};
    uint32_t bits = 0, deepest, depth, j;
    uint64_t n = records, pages;
    if (shape.attributes - 1 > 3 || shape.capacity - 1 > 15)
        return room;
    for (j = 0; j < shape.attributes; j++) {
        if (shape.widths[j] - 1 > 15)
            return room;
        bits += shape.widths[j];
    }
    deepest = bits < 12 ? bits : 12;
    depth = 0;
    while (depth < deepest && !mdeh_room_deep(depth, bits, shape.capacity, records))
        depth++;
    room.holds = n <= (uint64_t)1 << (bits < 32 ? bits : 32) && mdeh_room_deep(depth, bits, shape.capacity, records);
    if (!room.holds)
        depth = deepest;
    room.words = (size_t)1 << depth;
    pages = (2 * n + shape.capacity - 1) / shape.capacity + 8;
    pages = pages < room.words ? pages : room.words;
    pages = pages < n ? pages : n;
    room.bytes = (size_t)(pages > 0 ? pages : 1) * MDEH_PAGE_BYTES(shape.capacity);
    return room;
}

/* The value of rank r among `count` values that are spread evenly over 2^width, order kept: floor(r * 2^width / count).
   MDEH_NO_VALUE for a rank of `count` or more, more values than 2^width, or a width above 16. */
static inline uint32_t mdeh_spread(uint32_t rank, uint32_t count, uint32_t width) {
    if (width > 16 || count > UINT32_C(1) << width || rank >= count)
        return MDEH_NO_VALUE;
    return (uint32_t)(((uint64_t)rank << width) / count);
}

/* The rank whose value mdeh_spread gives; of a number between two such values the rank of the upper one, the least rank
   whose value is not below it. `count` where there is none, also where mdeh_spread has no value for any rank. */
static inline uint32_t mdeh_rank(uint32_t spread, uint32_t count, uint32_t width) {
    if (width > 16 || count > UINT32_C(1) << width || spread >= UINT32_C(1) << width)
        return count;
    return (uint32_t)(((uint64_t)spread * count + (UINT32_C(1) << width) - 1) >> width);
}

/* The value whose bits are those of the given one in reverse; its own inverse. MDEH_NO_VALUE for a value of 2^width or
   more, or a width above 16. */
static inline uint32_t mdeh_reversed(uint32_t value, uint32_t width) {
    uint32_t reversed = 0, k;
    if (width > 16 || value >= UINT32_C(1) << width)
        return MDEH_NO_VALUE;
    for (k = 0; k < width; k++)
        reversed |= (value >> k & 1) << (width - 1 - k);
    return reversed;
}

/* The shape in the words of a state. */
static inline MdehShape mdeh_shape(const uint32_t *state) {
    MdehShape shape;
    int j;
    shape.attributes = state[0];
    for (j = 0; j < 4; j++)
        shape.widths[j] = state[1 + j];
    shape.capacity = state[5];
    shape.signs = state[MDEH_STATE_WORDS - 1];
    return shape;
}

/* A record of an output, a file or a page. */
typedef struct {
    int32_t values[4];
    uint32_t payload;
} MdehRecord;

/* Record i of those that begin at `records`: an output, a file, or a page past its two first bytes. A field of 16 bits
   is from -32768 to 32767 where the shape marks its attribute, otherwise from 0 to 65535. */
static inline MdehRecord mdeh_record(MdehShape shape, const uint8_t *records, size_t i) {
    const uint8_t *p = records + MDEH_RECORD_BYTES * i;
    MdehRecord record;
    uint32_t j;
    for (j = 0; j < 4; j++) {
        int32_t value = p[2 * j] + 256 * (int32_t)p[2 * j + 1];
        if (value >= 32768 && j < shape.attributes && (shape.signs & MDEH_SIGNED(j)) != 0)
            value -= 65536;
        record.values[j] = value;
    }
    record.payload = p[8] | (uint32_t)p[9] << 8 | (uint32_t)p[10] << 16 | (uint32_t)p[11] << 24;
    return record;
}

/* What a number says, in words. */
static inline const char *mdeh_reason(uint32_t number) {
    switch (number) {
    case MDEH_ACCEPTED: return "accepted";
    case MDEH_REFUSED_SHAPE: return "the attribute count is outside 1 to 4, or the words of a state are too few";
    case MDEH_REFUSED_MEMORY: return "too few words or bytes are lent";
    case MDEH_REFUSED_VALUE: return "a value, index or address is outside its bounds, or an unused value is not 0";
    case MDEH_REFUSED_STORED: return "the key is stored already";
    case MDEH_REFUSED_ABSENT: return "the key is not stored";
    case MDEH_REFUSED_DEPTH: return "the directory cannot grow deep enough to tell the keys apart";
    case MDEH_REFUSED_PAGES: return "there are too few pages";
    case MDEH_REFUSED_ATTRIBUTE: return "the query or range gives an attribute that the shape does not have";
    case MDEH_REFUSED_UNSOUND: return "the store is not sound";
    case MDEH_REFUSED_INTERVAL: return "an interval's low end is above its high end";
    case MDEH_REFUSED_PAYLOAD: return "the payload is 0";
    case MDEH_REFUSED_FILE: return "the bytes are no whole file";
    case MDEH_REFUSED_CONTENT: return "the file has a stray byte, a value out of bounds or records out of order";
    case MDEH_REFUSED_WIDTH: return "the width of an attribute is outside 1 to 16";
    case MDEH_REFUSED_CAPACITY: return "the page capacity is outside 1 to 16";
    default: return "no number of this library";
    }
}

/* What a number says with the attribute beside it, which the text of 14 names. */
static inline const char *mdeh_reason_of(uint32_t number, uint32_t attribute) {
    static const char *const widths[4] = {
        "the width of attribute 0 is outside 1 to 16", "the width of attribute 1 is outside 1 to 16",
        "the width of attribute 2 is outside 1 to 16", "the width of attribute 3 is outside 1 to 16"};
    return number == MDEH_REFUSED_WIDTH && attribute < 4 ? widths[attribute] : mdeh_reason(number);
}

#ifdef __cplusplus
}
#endif

#endif
