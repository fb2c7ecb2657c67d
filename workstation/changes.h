/* What becomes of the wells between two lists, told by well and not by place, since a list may have been closed up. */
#ifndef CHANGES_H
#define CHANGES_H

#include "well.h"

/* For each number of a well the only place that has it; or that none has it, or several. */
enum { NONE = 0xffff, SEVERAL = 0xfffe };
struct index {
    uint16_t place[65536];
};
void index_wells(struct index *index, const struct list *list);

/* The record of the only well with a number that tells it, or null. */
const uint8_t *well_of(const struct list *list, const struct index *index, size_t number);

/* Prints a line, set in, for each record that isn't the same in both, and how many wells only stand at another place.
   Wells whose number tells them are held against each other by it, all other records by their place. */
void changes_print(FILE *to, const struct list *before, const struct list *after);

#endif
