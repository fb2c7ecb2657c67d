/* CSV files: their reading, and the place of a fault in one. */
#ifndef CSVFILE_H
#define CSVFILE_H

#include "csv.h"

/* A text with room for a byte more than a planner's may have, so that a longer one is seen to be one. */
struct text {
    uint8_t bytes[CSV_MOST + 1];
    size_t len;
};

/* Reads a file whole, "-" being standard input, and the wells in it. `opened` is as csv_read gives it. Ends the program
   where that can't be done, with the place of a fault. */
void csvfile_read(struct text *text, struct list *list, char opened[OPENED_MOST], const char *file);

/* Says where in a file a fault is. */
void say_at(const char *file, const struct csv_fault *fault);

#endif
