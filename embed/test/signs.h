/* Stores with attributes that are marked as signed. */
#ifndef SIGNS_H
#define SIGNS_H

/* Every call at both bounds of a value and past them, for widths from 1 to 16, marked and not. */
void signed_bounds(void);

/* A list in split order across 0, its records read back, and ranges across 0. */
void signed_order(void);

/* Records read with any marks: a sign where the attribute is marked and the shape has it. */
void signed_records(void);

/* Random lists of calls on a store with marks and on the store of its encodings without them: they differ in the marks
   and in the fields of marked attributes alone. */
void signed_twins(void);

/* Marks past the attribute count, given to Fresh and in a state. */
void marks_past(void);

/* Each field of 16 bits in a page: check says no to those that hold no value. */
void signed_fields(void);

#endif
