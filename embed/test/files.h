/* Files of saved stores, each answer and all bytes beside the plain writer's and reader's. */
#ifndef FILES_H
#define FILES_H

/* The bytes of small stores, written down. */
void file_layout(void);

/* Stores of one set, filled in other orders and in other slices, save equal bytes, and those of another set do not. */
void file_orders(void);

/* Outputs of every length: the file, or nothing where it does not fit. Slices of a store that are too short. */
void file_outputs(void);

/* Each byte of a file changed: to every other value in the shape and the trailer, to some in the records. */
void file_changes(void);

/* Files that are cut off at every length, at either end, and files with bytes added. */
void file_lengths(void);

/* Counts and distances whose sums need more than 32 bits. */
void file_counts(void);

/* Slices of all lengths up to those that a store has use for, and states of all lengths. */
void file_memory(void);

/* Random bytes, also with a right trailer, with a right shape, and with records in or out of order. */
void file_bytes(void);

/* Stores that are not sound: 2, 9, or a file as long as it says. */
void file_damage(void);

#endif
