/* What one save does to a sheet: steps, which are the library's calls, made one after the other under one claim. */
#ifndef STEPS_H
#define STEPS_H

#include "sheet.h"

enum step_kind { CHANGED = 1, APPENDED, DROPPED, CLOSED_UP };

/* A change and an append have the new record, a drop the one that is taken away. Closing up has as its place the number
   of records that are left, and no record. */
struct step {
    uint8_t kind;
    size_t place;
    uint8_t record[RECORD];
};

/* Changes come first, their places rising; then appends, or drops. Together they touch a place once at most. */
enum { STEPS_MOST = LUFFA_SHEET_MOST };
struct steps {
    size_t n;
    struct step step[STEPS_MOST];
};

/* The steps that make one list of another, and the one step that closes a list up. */
void steps_between(struct steps *steps, const struct list *from, const struct list *to);
void steps_close_up(struct steps *steps, const struct list *from);

/* Makes the steps: the first call carries the claim, each later one the digest that the one before gave. Changes go as
   batches. Where there is no step the claim is checked all the same. Gives LUFFA_DONE, and the sheet has records,
   count, marks and digest of the last; or the answer of the first call that was refused, and then the sheet isn't to be
   used. */
uint64_t steps_make(struct sheet *sheet, const struct steps *steps, const uint8_t *claim, size_t claim_len);

/* Does to a plain list what the steps say, without the library. Gives 0 where that can't be done. */
int steps_fold(struct list *list, const struct steps *steps);

#endif
