/* A planner's list laid over the list held: by hand, and over random edits of both. The wells that only one has touched
   are as that one has them, and those that both have touched are the planner's and are listed. What a well is, is known
   here by a table of numbers, and not by the index that lay.c uses. */
#include "../../workstation/lay.h"
#include <stdlib.h>
#include <string.h>

enum { NUMBERS = 1300 };

static struct list opened, mine, held;
static struct laid laid;
static uint64_t state = 88172645463325252u;
static long rounds, overlaps, full;

static size_t any(size_t below)
{
    state ^= state << 13;
    state ^= state >> 7;
    state ^= state << 17;
    return (size_t)(state >> 11) % below;
}

static void fail(const char *what, size_t number)
{
    printf("lay: %s (round %ld, well %zu)\n", what, rounds, number);
    exit(1);
}

static void put(struct list *list, size_t place, size_t number, size_t rate)
{
    uint8_t *record = list->records + RECORD * place;

    memset(record, 0, RECORD);
    put_number(record + LUFFA_WELL_NUMBER, 2, number);
    record[LUFFA_WELL_KIND] = number > 0 ? LUFFA_INJECTOR : 0;
    put_number(record + LUFFA_WELL_RATE, 4, rate);
}

static void take(struct list *list, size_t place)
{
    memmove(list->records + RECORD * place, list->records + RECORD * (place + 1), RECORD * (list->n - place - 1));
    memset(list->records + RECORD * --list->n, 0, RECORD);
}

static void insert(struct list *list, size_t place, size_t number, size_t rate)
{
    memmove(list->records + RECORD * (place + 1), list->records + RECORD * place, RECORD * (list->n++ - place));
    put(list, place, number, rate);
}

/* What a list says of a number: its record, or null. */
static const uint8_t *of(const struct list *list, size_t number)
{
    for (size_t i = 0; i < list->n; i++)
        if (get_number(record_at(list, i), 2) == number)
            return record_at(list, i);
    return NULL;
}

static int alike(const uint8_t *one, const uint8_t *other)
{
    return one == other || (one && other && memcmp(one, other, RECORD) == 0);
}

static size_t unused(const struct list *list)
{
    size_t number;

    do
        number = 1 + any(NUMBERS - 1);
    while (of(list, number) || of(&opened, number));
    return number;
}

static void close_up(struct list *list)
{
    for (size_t i = list->n; i-- > 0;)
        if (struck(record_at(list, i)))
            take(list, i);
}

/* Some edits of a list as a planner makes them: its wells stay told by their numbers. */
static void edit(struct list *list, size_t edits)
{
    while (edits-- > 0) {
        size_t place = list->n > 0 ? any(list->n) : 0, number = list->n > 0 ? get_number(record_at(list, place), 2) : 0;

        switch (any(9)) {
        case 0:
        case 1:
        case 2:
            if (number > 0)
                put(list, place, number, 1 + any(5));
            break;
        case 3:
            if (list->n > 0)
                put(list, place, 0, 0);
            break;
        case 4:
            if (list->n < LUFFA_SHEET_MOST)
                insert(list, list->n, unused(list), 1 + any(5));
            break;
        case 5:
            if (list->n > 0)
                take(list, any(2) ? list->n - 1 : place);
            break;
        case 6:
            if (list->n > 0)
                put(list, place, unused(list), 1 + any(5));
            break;
        case 7:
            if (list->n < LUFFA_SHEET_MOST)
                insert(list, place, unused(list), 1 + any(5));
            break;
        default:
            close_up(list);
        }
    }
}

static int listed(size_t number)
{
    for (size_t i = 0; i < laid.both_n; i++)
        if (laid.both[i].number == number)
            return 1;
    return 0;
}

/* What each list says of each number. */
static const uint8_t *all[4][NUMBERS];

static void read_all_of(size_t which, const struct list *list)
{
    for (size_t number = 0; number < NUMBERS; number++)
        all[which][number] = NULL;
    for (size_t i = 0; i < list->n; i++) {
        size_t number = get_number(record_at(list, i), 2);
        if (number > 0 && all[which][number])
            fail("twice", number);
        all[which][number] = record_at(list, i);
    }
}

/* Each number on its own: three-way, as the page of lay.h says it. */
static void check_well(size_t number)
{
    const uint8_t *was = all[0][number], *own = all[1][number], *theirs = all[2][number], *got = all[3][number];
    int touched = !alike(was, own), by_them = !alike(was, theirs), both = touched && by_them && !alike(own, theirs);

    if (!alike(got, touched ? own : theirs))
        fail(touched ? "the planner's own isn't there" : "the others' isn't there", number);
    if (listed(number) != both)
        fail(both ? "touched by both, and not listed" : "listed, and not touched by both", number);
    overlaps += both;
}

static void check(void)
{
    if (!lay(&laid, &opened, &mine, &held)) {
        full++;
        return;
    }
    read_all_of(0, &opened);
    read_all_of(1, &mine);
    read_all_of(2, &held);
    read_all_of(3, &laid.list);
    for (size_t number = 1; number < NUMBERS; number++)
        check_well(number);
    for (size_t i = RECORD * laid.list.n; i < sizeof laid.list.records; i++)
        if (laid.list.records[i] != 0)
            fail("something stands behind the records", i);
    if (memcmp(&opened, &held, sizeof opened) == 0 && memcmp(&laid.list, &mine, sizeof mine) != 0)
        fail("over the sheet that was opened it isn't the planner's own", 0);
    if (memcmp(&opened, &mine, sizeof opened) == 0 && memcmp(&laid.list, &held, sizeof held) != 0)
        fail("nothing was changed, and it isn't the list held", 0);
}

/* The order of the lists that are left alone: a change of each at different wells leaves every well at its place. */
static void check_places(void)
{
    size_t one = any(opened.n), other = (one + 1 + any(opened.n - 1)) % opened.n;

    mine = held = opened;
    put(&mine, one, 1 + one, 77);
    put(&held, other, 1 + other, 88);
    check();
    if (laid.both_n != 0 || laid.list.n != opened.n || !alike(record_at(&laid.list, one), record_at(&mine, one)) ||
        !alike(record_at(&laid.list, other), record_at(&held, other)))
        fail("two changes at different places", one);
}

static void check_random(void)
{
    size_t n = any(16) == 0 ? LUFFA_SHEET_MOST - any(6) : any(12);

    memset(&opened, 0, sizeof opened);
    opened.n = n;
    for (size_t i = 0; i < n; i++)
        put(&opened, i, i + 1, 10);
    if (n > 1)
        check_places();
    edit(&opened, any(3));
    mine = held = opened;
    edit(&mine, any(6));
    edit(&held, any(6));
    check();
}

static size_t count(const struct list *list, const uint8_t *record)
{
    size_t n = 0;

    for (size_t i = 0; i < list->n; i++)
        n += memcmp(record_at(list, i), record, RECORD) == 0;
    return n;
}

/* So many of a record stand in the list laid as the one has who alone has touched them; else it is listed. */
static void check_count(const uint8_t *record)
{
    size_t was = count(&opened, record), own = count(&mine, record), theirs = count(&held, record),
           got = count(&laid.list, record);

    if (struck(record))
        return;
    if (own > was && theirs > was ? got != (own > theirs ? own : theirs)
                                  : laid.both_n == 0 && got != (own == was ? theirs : own))
        fail("another number of a record, and it isn't listed", get_number(record, 2));
    if (theirs == was && got != own)
        fail("only the planner has touched it, and it isn't as the planner has it", get_number(record, 2));
}

/* Numbers that repeat, and 0: edits of any kind by both. */
static void edit_any(struct list *list, size_t edits)
{
    while (edits-- > 0) {
        size_t place = list->n > 0 ? any(list->n) : 0;

        switch (any(4)) {
        case 0:
            if (list->n > 0)
                take(list, place);
            break;
        case 1:
            if (list->n > 0)
                put(list, place, any(2) ? 0 : any(4), any(3) * any(4));
            break;
        default:
            insert(list, any(2) ? list->n : place, any(4), 1 + any(4));
        }
    }
}

static void check_any(void)
{
    memset(&opened, 0, sizeof opened);
    edit_any(&opened, any(8));
    mine = held = opened;
    edit_any(&mine, any(4));
    edit_any(&held, any(4));
    if (!lay(&laid, &opened, &mine, &held))
        fail("no room", 0);
    for (size_t i = 0; i < opened.n; i++)
        check_count(record_at(&opened, i));
    for (size_t i = 0; i < mine.n; i++)
        check_count(record_at(&mine, i));
    for (size_t i = 0; i < held.n; i++)
        check_count(record_at(&held, i));
    if (!lay(&laid, &opened, &mine, &mine) || laid.both_n != 0 || memcmp(&laid.list, &mine, sizeof mine) != 0)
        fail("laid over itself it isn't itself", 0);
}

/* Records that no number tells aren't lost either. */
static void check_others(void)
{
    memset(&opened, 0, sizeof opened);
    opened.n = 4;
    for (size_t i = 0; i < 4; i++)
        put(&opened, i, 5, 10 + i);
    mine = held = opened;
    put(&mine, 1, 5, 70);
    put(&held, 2, 5, 80);
    if (!lay(&laid, &opened, &mine, &held) || laid.both_n != 0 || laid.list.n != 4 ||
        !alike(record_at(&laid.list, 1), record_at(&mine, 1)) || !alike(record_at(&laid.list, 2), record_at(&held, 2)))
        fail("numbers that repeat", 5);
    put(&held, 1, 5, 90);
    if (!lay(&laid, &opened, &mine, &held) || laid.both_n != 1 || laid.both[0].number != 0 || laid.both[0].place != 1 ||
        !of(&laid.list, 5) || laid.list.n != 5)
        fail("one place that both have touched", 5);
}

int main(void)
{
    check_others();
    for (rounds = 0; rounds < 10000; rounds++)
        check_random();
    for (rounds = 0; rounds < 20000; rounds++)
        check_any();
    if (overlaps < 500 || full == 0)
        fail("too little was met", (size_t)overlaps);
    printf("lay: %ld texts laid over sheets, %ld wells touched by both\n", 2 * rounds, overlaps);
    return 0;
}
