/* What a rival wishes to save: the function of rivals.h, which works out what the list must become. */
#include "rivals.h"
#include <stdio.h>
#include <string.h>

enum { CHANGES_MOST = 80 };

/* How many records the sheet should have after so many saves: it grows over the first part of a trial until it is full,
   shrinks over the second to none, and grows again. */
static size_t wished(long saves, long wanted)
{
    long top = 1200, parts = 20 * saves, up = 9 * wanted,
         n = parts < up       ? top * parts / up
             : parts < 2 * up ? top * (2 * up - parts) / up - 100
                              : top * (parts - 2 * up) / up;

    return n < 0 ? 0 : n > LUFFA_SHEET_MOST ? LUFFA_SHEET_MOST : (size_t)n;
}

static size_t several(size_t most)
{
    return any(2) ? 1 : 1 + any(most);
}

static void change(struct attempt *a, struct list *list, size_t below, const char *who)
{
    size_t places[CHANGES_MOST], n = list_pick(list, below, 0, several(CHANGES_MOST), places);

    for (size_t i = 0; i < n; i++)
        list_put(list, places[i], who);
    a->steps[CHANGED] = n;
}

/* Appends or drops, one in three times together with changes. */
static void resize(struct attempt *a, struct list *list, size_t aim, const char *who)
{
    size_t gap = list->n < aim ? aim - list->n : list->n - aim, n = 1 + any(any(20) == 0 ? CHANGES_MOST : 2 * gap + 1);
    int grows = list->n < aim || list->n == 0;
    size_t most = grows ? LUFFA_SHEET_MOST - list->n : list->n;

    n = n > most ? most : n;
    if (any(3) == 0)
        change(a, list, grows ? list->n : list->n - n, who);
    a->steps[grows ? APPENDED : DROPPED] = n;
    if (!grows)
        list->n -= n;
    else
        while (n-- > 0)
            list_put(list, list->n, who);
}

/* Names wells to be struck, from any of them on. Where one of them is absent, none is. */
static void strike(struct attempt *a, struct list *list, int absent, struct save *save)
{
    size_t places[WELLS_MOST], n = list_pick(list, list->n, 1, any(WELLS_MOST) + !absent, places), first = any(n + 1);

    a->kind = STRIKE;
    for (size_t i = 0; i < n; i++)
        snprintf(save->wells[save->wells_n++], sizeof save->wells[0], "%u",
                 (unsigned)number(list->records[places[(first + i) % n]] + LUFFA_WELL_NUMBER, 2));
    if (absent) {
        snprintf(save->wells[save->wells_n++], sizeof save->wells[0], "%u", list_free_number(list));
        return;
    }
    for (size_t i = 0; i < n; i++)
        memset(list->records[places[i]], 0, RECORD);
    a->steps[CHANGED] = n;
}

static void close_up(struct attempt *a, struct list *list)
{
    a->kind = CLOSE_UP;
    a->steps[CLOSED_UP] = list_close_up(list) > 0;
}

void intend(struct attempt *a, enum wish wish, struct list *list, long saves, long wanted, struct save *save)
{
    size_t standing = list_standing(list, list->n);

    a->kind = SAVE;
    memset(a->steps, 0, sizeof a->steps);
    save->wells_n = 0;
    if (wish == CLOSING && standing == list->n)
        wish = STRIKES;
    if ((wish == STRIKES && standing == 0) || (wish == CHANGES && list->n == 0))
        wish = SIZE;
    if (wish == CHANGES)
        change(a, list, list->n, save->who);
    else if (wish == SIZE)
        resize(a, list, wished(saves, wanted), save->who);
    else if (wish == STRIKES || (wish == ODD && any(3) == 0))
        strike(a, list, wish == ODD, save);
    else if (wish == CLOSING || any(2) == 0)
        close_up(a, list);
}
