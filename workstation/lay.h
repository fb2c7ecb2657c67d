/* A planner's text laid over a sheet that others have saved since it was opened. */
#ifndef LAY_H
#define LAY_H

#include "changes.h"

/* A record that both have touched, differently: as it was opened, as the others have it and as the planner has it. Null
   where there is none. */
struct both {
    size_t number, place; /* of the well; where its number doesn't tell it, 0 and the place in the planner's text */
    const uint8_t *opened, *held, *mine;
};

enum { BOTH_MOST = 4 * LUFFA_SHEET_MOST };
struct laid {
    struct list list;
    size_t both_n;
    struct both both[BOTH_MOST];
};

/*
 * Lays the list `mine`, which a planner has made of the list `opened`, over the list `held`. A well is known by its
 * number, wherever it stands: what the planner has changed, added, struck or taken away is so in the list laid, and
 * what only the others have touched is as they have it. New wells come after the others', but where the planner had put
 * one in the place of a record that still stands there. A record that no number tells (number 0, or a number that
 * repeats) is known by its bytes, and there are as many of it as the one has left who has touched them.
 * Where the sheet hasn't changed, the list laid is the planner's own; where the planner has changed nothing, it is the
 * one held. Gives 0 where it would have more records than a sheet takes.
 */
int lay(struct laid *laid, const struct list *opened, const struct list *mine, const struct list *held);

/* Adds the wells that another laying lists, and prints the list. */
void lay_add(struct laid *laid, const struct laid *more);
void lay_print(FILE *to, const struct laid *laid);

#endif
