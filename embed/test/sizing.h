/* What memory records need and how values are laid out for it: mdeh_room beside real fills, spread and reversed values,
   the gateway's rows; payloads replaced in full stores; the version. */
#ifndef SIZING_H
#define SIZING_H

/* The version's text beside its numbers. */
void version_text(void);

/* The values of mdeh_room for some shapes and counts, its edges, and shapes out of bounds. */
void room_values(void);

/* The least depth and the pages of many shapes and counts, by a reading of its own. */
void room_bounds(void);

/* Stores of random keys in exactly the memory that mdeh_room gives, and in half of its words. */
void room_fills(void);

/* What is certain of any keys: all keys of a shape where no cell has more than a page takes, and as many pages as words
   under keys that cluster. */
void certain_rooms(void);

/* Every rank of every count at small widths, and of some at the others: floor, order, evenness, and the way back. */
void spread_ranks(void);

/* Every value of every width, and arguments out of bounds. */
void reversed_values(void);

/* The choices of the header's table: how many of 20,000 random rows each holds. */
void gateway_rows(void);

/* Each payload of a store that has no room replaced by a delete and an insert. */
void replaced_payloads(void);

#endif
