/* A save under the lock, from the reading of the sheet to the answer, and what is told where it is turned away. */
#ifndef SAVE_H
#define SAVE_H

#include "kept.h"

/* A sheet that is open, with its lock held: nothing comes between the check of the claim and the save. */
struct desk {
    struct store store;
    struct sheet sheet;
    int saved, unsure; /* whether something was saved, and whether the server warns of it */
};

/* A digest as it was given, in bytes, up to one more than the longest has: whether they are as many as they should be
   is the library's to say. */
struct claim {
    uint8_t bytes[DIGEST_MOST + 1];
    size_t len;
};
void claim_read(struct claim *claim, const char *digits);

/* The digits of a sheet's digest, and of a claim; those of one that is too long are cut off. */
void digest_digits(char digits[DIGITS_MOST], const struct sheet *sheet);
void claim_digits(char digits[DIGITS_MOST], const struct claim *claim);

/* Opens a sheet whose place was found, to save it. */
void desk_open(struct desk *desk);

/* Makes the steps as one save by `who`, and lets go of the lock. Where there is no step it checks the claim and saves
   nothing. Ends the program where it is refused: then `own`, if it isn't null, is kept, and the stale planner is told
   where the sheets differ. Nothing is printed while the lock is held, as who reads it may let it wait. */
void desk_save(struct desk *desk, const struct steps *steps, const struct claim *claim, const char *who,
               const struct kept *own);

/* Prints the answer to a save that was done, and gives the status to end with. */
int desk_answer(const struct desk *desk);

/* Whether a claim is the digest of a sheet, and so speaks of what it holds. */
int claims(const struct claim *claim, const struct sheet *sheet);

/* Says what fault a save leaves, if any, before it is made. */
void say_fault(const struct list *list);

#endif
