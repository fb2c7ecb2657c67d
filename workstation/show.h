/* The commands that show a sheet, and what the library says of it, and save nothing of a planner's. */
#ifndef SHOW_H
#define SHOW_H

#include <stddef.h>

/* Each gives the status to end with. */
int show(const char *file, int as_csv);
int check(const char *const *files, size_t n);
int reach(const char *file, size_t well, size_t hops);
int mend(const char *file);
int print_log(const char *file);
int verify(const char *file);

#endif
