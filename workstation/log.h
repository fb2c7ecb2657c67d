/*
 * The log of a sheet in a file: one entry for each save, in the order in which they were accepted.
 *
 * Which saves were accepted? Those in the first `logged` bytes, `saves` of them, where both numbers stand in the
 * sheet's own file. A saver holds the lock, writes its entry at `logged`, waits until the disk has it, and then puts in
 * place the sheet that has what was saved, `saves` + 1 and the new `logged` together. That rename is the moment of
 * acceptance: killed before it, the saver has left an entry, or a part of one, that doesn't count, and the next saver
 * cuts it off; killed after it, the save is accepted although its planner was never told. So there is no moment at
 * which sheet and log disagree, and an entry that counts is never written again, but for the mark that its save was
 * accepted: by it an older copy of the sheet is told from one whose next saver was killed.
 */
#ifndef LOG_H
#define LOG_H

#include "store.h"

/* Each of these ends the program with a message where it can't be done. */

/* Makes an empty log for a new sheet. */
void log_new(const struct store *store);

/* Under the lock: checks that the log ends where the sheet stands, and gives it ready for the sheet's next save. */
int log_open(const struct store *store, const struct sheet *sheet);

/* Writes the entry of the next save, waits until the disk has it, and counts it in the sheet, which isn't written yet.
   When that is in place, marks the entry at the place where the log ended before. */
void log_add(int log, struct sheet *sheet, const struct entry *entry);
void log_accepted(int log, uint64_t at);

/* The log of a sheet for reading; and its next entry, which is the last that counts or not. */
void log_read(struct store *store, const struct sheet *sheet);
void log_next(struct store *store, struct entry *entry, int is_last);

#endif
