/* What random lists do not reach. */
#ifndef EDGES_H
#define EDGES_H

/* Each slice of each call without elements and without a pointer. */
void empty_slices(void);

/* Ranges at the ends of what is stored, of the widths, of the output and of the numbers. */
void ranges(void);

/* Inserts with a payload of 0 and with the payloads next to it, where each other number is due too. */
void payloads(void);

/* A stored payload of 0, as a store of an earlier version may hold it: checked, looked up, listed, deleted. */
void stored_zero(void);

/* The address map of all small shapes, with any marks, beside the doubling array. */
void addresses(void);

#endif
