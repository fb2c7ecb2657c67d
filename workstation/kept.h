/*
 * The text of a planner who is editing a sheet: NAME~WHO.csv beside the sheet, or, where that is in a database, in a
 * folder of the planner's own, as an evening's work shouldn't hang on a network. It is there from the moment the sheet
 * is opened for editing until its save is accepted, so whatever comes between, the evening's work can be gone on with.
 * Its first line has the digest of the sheet that was opened (csv.h): text and digest are one file, and never disagree.
 */
#ifndef KEPT_H
#define KEPT_H

#include "csv.h"
#include "store.h"

struct kept {
    const char *who;
    const char *why; /* there is no place for it; or null */
    int beside;      /* the sheet */
    char name[NAME_MAX + 1], path[PATH_MAX + NAME_MAX + 2];
    uint8_t text[CSV_MOST + OPENED_MOST + 16]; /* room for the first line before any text */
    size_t len;
};

/* Each of these ends the program with a message where it can't be done. */

/* Names the text of a planner. Where there is no place for it, `why` says so, and nothing else is to be done with it.
 */
void kept_find(struct kept *kept, struct store *store, const char *who);

/* Reads it, or gives 0 where there is none, and -1 where it can't be read; writes it whole in the place of the one that
   is there, or gives 0 where that can't be done; removes it, unless it has become another one, which is left and said.
 */
int kept_read(struct kept *kept, const struct store *store);
int kept_write(const struct kept *kept, struct store *store);
void kept_remove(const struct kept *kept, struct store *store);

/* Writes it where none is there. Nobody comes between the look and the writing, as a second program of the same planner
   would. */
enum written { WRITTEN, THERE_ALREADY, ANOTHER_THERE, NOT_WRITTEN };
enum written kept_write_new(const struct kept *kept, struct store *store);

/* Whether just this text is there: 1; another one, or one that can't be read: 0; none: -1. */
int kept_there(const struct kept *kept, const struct store *store);

/* Makes it the text of a list that was opened under a digest; or, as it stands, another text of CSV_MOST bytes at most
   that has no first line of this kind, or has this one. */
void kept_from_list(struct kept *kept, const struct list *list, const char *opened);
void kept_from_text(struct kept *kept, const uint8_t *text, size_t len, const char *opened);

/* Says where it is, and how to go on with it. */
void kept_say(const struct kept *kept, const struct store *store);

#endif
