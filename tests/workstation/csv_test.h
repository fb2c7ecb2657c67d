/* The parts of the test of the CSV form. */
#ifndef CSV_TEST_H
#define CSV_TEST_H

#include "../../workstation/csv.h"
#include "records.h"

/* Reads a text that lies in a block of just its length, so that a look beyond it is seen, into a list that is dirty.
   Judges what holds of every answer: read, the room behind the records is zero; refused, the fault has a place that the
   text has, and words that can be shown. */
int read_lent(struct list *list, char opened[OPENED_MOST], const uint8_t *text, size_t len, struct csv_fault *fault);

/* Writes a list and reads it again: it must be the same, its text too, and each of its cells one that is no formula. */
void same_again(const struct list *list, const char *opened);

/* A digest of any length that one has, or none. */
void any_digest(char opened[OPENED_MOST]);

/* The parts: cases by hand, and random and damaged files, of which so many are read. */
void fixed_cases(void);
void damaged_files(size_t files);

#endif
