/* The functions of lay.h. */
#include "lay.h"
#include <string.h>

/* The three lists, and where their wells stand. */
static const struct list *opened, *mine, *held;
static struct index in_opened, in_mine, in_held;

/* What is being made of the list held: records that are put in the place of its own, those that are taken away, and
   those that are added. */
static struct list put, added;
static uint8_t gone[LUFFA_SHEET_MOST];

/* Whether a number tells a well in all three lists. */
static int tells(size_t number)
{
    return in_opened.place[number] != SEVERAL && in_mine.place[number] != SEVERAL && in_held.place[number] != SEVERAL;
}

static int same(const uint8_t *one, const uint8_t *other)
{
    return one && other ? same_record(one, other) : one == other;
}

static void note_both(struct laid *laid, size_t number, size_t place, const uint8_t *was, const uint8_t *theirs,
                      const uint8_t *own)
{
    struct both both = {.number = number, .place = place, .opened = was, .held = theirs, .mine = own};

    if (laid->both_n < BOTH_MOST)
        laid->both[laid->both_n++] = both;
}

static void put_at(size_t place, const uint8_t *record)
{
    memcpy(put.records + RECORD * place, record, RECORD);
}

static void add(const uint8_t *record)
{
    memcpy(added.records + RECORD * added.n++, record, RECORD);
}

static size_t copies(const struct list *list, const uint8_t *record)
{
    size_t n = 0;

    for (size_t i = 0; i < list->n; i++)
        n += (size_t)same_record(record_at(list, i), record);
    return n;
}

/* A record that no number tells is known by its bytes, and there may be several of it. So many are to be laid: as many
   as the one has who has touched them; where both have added or both taken away, as many as the one who has done more.
 */
static size_t wanted(const uint8_t *record)
{
    size_t was = copies(opened, record), own = copies(mine, record), theirs = copies(held, record);

    if (own == was)
        return theirs;
    if (theirs == was)
        return own;
    if (own > was && theirs > was)
        return own > theirs ? own : theirs;
    if (own < was && theirs < was)
        return own < theirs ? own : theirs;
    return own + theirs - was;
}

/* So many are there by now. */
static size_t there(const uint8_t *record)
{
    size_t n = copies(&added, record);

    for (size_t i = 0; i < put.n; i++)
        n += !gone[i] && same_record(record_at(&put, i), record);
    return n;
}

/* Whether the record that was opened at a place is no longer in the planner's list, and still stands there in the one
   held: then what the planner has put there takes its place. */
static int replaced(size_t place)
{
    const uint8_t *was;

    if (place >= opened->n || place >= held->n || !same_record(record_at(opened, place), record_at(held, place)))
        return 0;
    was = record_at(opened, place);
    if (!tells(well_number(was)))
        return struck(was) || there(was) > wanted(was);
    return in_mine.place[well_number(was)] == NONE;
}

/* A record of the planner's whose number tells it. */
static void lay_well(struct laid *laid, size_t place, size_t number)
{
    const uint8_t *own = record_at(mine, place), *was = well_of(opened, &in_opened, number),
                  *theirs = well_of(held, &in_held, number);

    if (same(own, was) || same(own, theirs))
        return;
    if (!same(was, theirs))
        note_both(laid, number, place, was, theirs, own);
    if (theirs)
        put_at(in_held.place[number], own);
    else if (!was && replaced(place))
        put_at(place, own);
    else
        add(own);
}

/* Where one of them stands in the list held and is still there: at the same place if it can be. Else n. */
static size_t standing_at(const uint8_t *record, size_t place)
{
    if (place < put.n && !gone[place] && same_record(record_at(&put, place), record))
        return place;
    for (place = put.n; place-- > 0;)
        if (!gone[place] && same_record(record_at(&put, place), record))
            return place;
    return put.n;
}

/* A record of the planner's in the place of one whose number tells it, and that isn't in the planner's list any more: a
   strike, most of all. Gives whether it is laid. */
static int lay_for_well(struct laid *laid, size_t place, size_t number, const uint8_t *was, const uint8_t *own)
{
    const uint8_t *theirs = well_of(held, &in_held, number);

    if (!same(was, theirs) && (theirs || !struck(own)))
        note_both(laid, number, place, was, theirs, own);
    if (theirs)
        put_at(in_held.place[number], own);
    return theirs != NULL;
}

/* The same in the place of one that no number tells. */
static int lay_for_other(struct laid *laid, size_t place, const uint8_t *was, const uint8_t *own)
{
    size_t at = standing_at(was, place);

    if (struck(was))
        at = at == place ? at : put.n;
    else if (there(was) <= wanted(was)) {
        if (copies(mine, was) < copies(opened, was) && copies(held, was) < copies(opened, was))
            note_both(laid, 0, place, was, NULL, own);
        return 0;
    }
    if (at < put.n)
        put_at(at, own);
    return at < put.n;
}

/* A record of the planner's that no number tells. */
static void lay_other(struct laid *laid, size_t place)
{
    const uint8_t *own = record_at(mine, place), *was = place < opened->n ? record_at(opened, place) : NULL;
    size_t number = was ? well_number(was) : 0;

    /* The same as before, or there already, as where lines have moved or others have added it too. */
    if ((was && same_record(own, was)) || (!struck(own) && there(own) >= wanted(own)))
        return;
    if (was && !tells(number) && lay_for_other(laid, place, was, own))
        return;
    /* Where the well that stood here is only a line further up or down, nothing was replaced. */
    if (was && tells(number) && in_mine.place[number] == NONE && lay_for_well(laid, place, number, was, own))
        return;
    if (!struck(own))
        add(own);
}

/* A record that was opened and that the planner has taken out of the list. */
static void lay_taken(struct laid *laid, size_t place)
{
    const uint8_t *was = record_at(opened, place), *theirs;
    size_t number = well_number(was);

    if (!tells(number)) {
        if (!struck(was) && there(was) > wanted(was))
            gone[standing_at(was, place)] = 1;
        return;
    }
    theirs = well_of(held, &in_held, number);
    /* Still the planner's, taken away by both, or struck or replaced already. */
    if (in_mine.place[number] != NONE || !theirs || well_number(record_at(&put, in_held.place[number])) != number)
        return;
    if (!same(was, theirs))
        note_both(laid, number, place, was, theirs, NULL);
    gone[in_held.place[number]] = 1;
}

/* Records that no number tells, and of which both have touched how many there are, or that aren't laid as they should
   be: the planner is to look at them. */
static void note_others(struct laid *laid)
{
    for (size_t i = 0; i < opened->n; i++) {
        const uint8_t *was = record_at(opened, i);
        size_t before, own, theirs;

        if (struck(was) || tells(well_number(was)))
            continue;
        before = copies(opened, was);
        own = copies(mine, was);
        theirs = copies(held, was);
        if ((own != before && theirs != before && own != theirs) || copies(&laid->list, was) != wanted(was))
            note_both(laid, 0, i, was, theirs > 0 ? was : NULL, own > 0 ? was : NULL);
    }
}

static int gather(struct laid *laid)
{
    size_t n = 0;

    memset(&laid->list, 0, sizeof laid->list);
    for (size_t i = 0; i < held->n + added.n; i++) {
        if (i < held->n && gone[i])
            continue;
        if (n == LUFFA_SHEET_MOST)
            return 0;
        memcpy(laid->list.records + RECORD * n++, i < held->n ? record_at(&put, i) : record_at(&added, i - held->n),
               RECORD);
    }
    laid->list.n = n;
    return 1;
}

int lay(struct laid *laid, const struct list *opened_list, const struct list *mine_list, const struct list *held_list)
{
    opened = opened_list;
    mine = mine_list;
    held = held_list;
    laid->both_n = 0;
    if (same_list(opened, held) || same_list(opened, mine) || same_list(mine, held)) {
        laid->list = same_list(opened, mine) ? *held : *mine;
        return 1;
    }
    index_wells(&in_opened, opened);
    index_wells(&in_mine, mine);
    index_wells(&in_held, held);
    put = *held;
    added.n = 0;
    memset(gone, 0, sizeof gone);
    for (size_t i = 0; i < mine->n; i++) {
        size_t number = well_number(record_at(mine, i));
        if (tells(number))
            lay_well(laid, i, number);
        else
            lay_other(laid, i);
    }
    for (size_t i = 0; i < opened->n; i++)
        lay_taken(laid, i);
    if (!gather(laid))
        return 0;
    note_others(laid);
    return 1;
}

void lay_add(struct laid *laid, const struct laid *more)
{
    for (size_t i = 0; i < more->both_n; i++) {
        size_t k = 0;

        while (k < laid->both_n && laid->both[k].number != more->both[i].number)
            k++;
        if (more->both[i].number > 0 && k == laid->both_n && k < BOTH_MOST)
            laid->both[laid->both_n++] = more->both[i];
    }
}

static void print_one(FILE *to, const char *whose, const uint8_t *record, int numbered)
{
    char words[WORDS_MOST];

    fprintf(to, "  %s  %s\n", whose, record ? well_words(words, record, numbered) : "none");
}

void lay_print(FILE *to, const struct laid *laid)
{
    for (size_t i = 0; i < laid->both_n; i++) {
        const struct both *both = &laid->both[i];

        if (both->number > 0)
            fprintf(to, "well %zu\n", both->number);
        else
            fprintf(to, "place %zu\n", both->place);
        print_one(to, "opened", both->opened, both->number == 0);
        print_one(to, "theirs", both->held, both->number == 0);
        print_one(to, "yours ", both->mine, both->number == 0);
    }
}
