/* Plain lists of wells, and their texts: the functions of rivals.h, which share nothing with the workstation. */
#include "rivals.h"
#include <stdio.h>
#include <stdlib.h>
#include <string.h>

enum { CELLS = 12, NOTE = RECORD - LUFFA_WELL_NOTE };

static const char header[] =
    "number,kind,rate,injector 1,share 1,injector 2,share 2,injector 3,share 3,injector 4,share 4,note\n";
static uint64_t state;

void any_from(uint64_t seed)
{
    state = seed;
    any(2);
}

/* xorshift */
size_t any(size_t below)
{
    state ^= state << 13;
    state ^= state >> 7;
    state ^= state << 17;
    return (state >> 11) % below;
}

uint64_t number(const uint8_t *bytes, size_t n)
{
    uint64_t value = 0;

    while (n-- > 0)
        value = value << 8 | *bytes++;
    return value;
}

static void put(uint8_t *bytes, size_t n, uint64_t value)
{
    for (; n > 0; value >>= 8)
        bytes[--n] = (uint8_t)value;
}

static int struck(const uint8_t *record)
{
    static const uint8_t zeros[RECORD];

    return memcmp(record, zeros, RECORD) == 0;
}

void list_digest(const struct list *list, size_t code, uint8_t out[DIGEST_MOST])
{
    memset(out, 0, DIGEST_MOST);
    luffa_digest(code, list->records[0], RECORD * list->n, out, DIGEST_MOST);
}

/* Reads the line of a well. Gives what follows it, or null. */
static const char *read_well(const char *at, uint8_t *record)
{
    char cells[CELLS][NOTE + 1];

    for (int i = 0; i < CELLS; i++) {
        size_t len = strcspn(at, ",\n");
        if (len > NOTE || at[len] != (i < CELLS - 1 ? ',' : '\n'))
            return NULL;
        memcpy(cells[i], at, len);
        cells[i][len] = 0;
        at += len + 1;
    }
    memset(record, 0, RECORD);
    if (strcmp(cells[1], "struck") == 0)
        return at;
    put(record + LUFFA_WELL_NUMBER, 2, strtoul(cells[0], NULL, 10));
    record[LUFFA_WELL_KIND] = strcmp(cells[1], "producer") == 0 ? LUFFA_PRODUCER : LUFFA_INJECTOR;
    put(record + LUFFA_WELL_RATE, 4, strtoul(cells[2], NULL, 10));
    for (int k = 0; k < LUFFA_LINKS_MOST && cells[3 + 2 * k][0]; k++) {
        put(record + LUFFA_LINK_INJECTOR(k), 2, strtoul(cells[3 + 2 * k], NULL, 10));
        put(record + LUFFA_LINK_SHARE(k), 2, strtoul(cells[4 + 2 * k], NULL, 10));
        record[LUFFA_WELL_LINK_COUNT]++;
    }
    memcpy(record + LUFFA_WELL_NOTE, cells[CELLS - 1], strlen(cells[CELLS - 1]));
    return at;
}

int list_from_csv(struct list *list, const char *text)
{
    list->n = 0;
    if (strncmp(text, header, strlen(header)) != 0)
        return 0;
    for (text += strlen(header); *text; list->n++)
        if (list->n == LUFFA_SHEET_MOST || !(text = read_well(text, list->records[list->n])))
            return 0;
    return 1;
}

static char *write_well(char *to, const uint8_t *record)
{
    if (struck(record))
        return to + sprintf(to, ",struck,,,,,,,,,,\n");
    to += sprintf(to, "%u,%s,%u,", (unsigned)number(record + LUFFA_WELL_NUMBER, 2),
                  record[LUFFA_WELL_KIND] == LUFFA_PRODUCER ? "producer" : "injector",
                  (unsigned)number(record + LUFFA_WELL_RATE, 4));
    for (int k = 0; k < LUFFA_LINKS_MOST; k++)
        if (k < record[LUFFA_WELL_LINK_COUNT])
            to += sprintf(to, "%u,%u,", (unsigned)number(record + LUFFA_LINK_INJECTOR(k), 2),
                          (unsigned)number(record + LUFFA_LINK_SHARE(k), 2));
        else
            to += sprintf(to, ",,");
    return to + sprintf(to, "%.*s\n", NOTE, (const char *)record + LUFFA_WELL_NOTE);
}

size_t list_to_csv(const struct list *list, char text[TEXT_MOST])
{
    char *to = text + sprintf(text, "%s", header);

    for (size_t i = 0; i < list->n; i++)
        to = write_well(to, list->records[i]);
    return (size_t)(to - text);
}

size_t list_standing(const struct list *list, size_t below)
{
    size_t n = 0;

    for (size_t i = 0; i < below; i++)
        n += !struck(list->records[i]);
    return n;
}

size_t list_pick(const struct list *list, size_t below, int standing, size_t most, size_t *places)
{
    size_t left = standing ? list_standing(list, below) : below, n = 0;

    for (size_t i = 0; i < below; i++)
        if ((!standing || !struck(list->records[i])) && any(left--) < most - n)
            places[n++] = i;
    return n;
}

unsigned list_free_number(const struct list *list)
{
    for (;;) {
        unsigned drawn = 1 + (unsigned)any(65535);
        size_t i = 0;

        while (i < list->n && number(list->records[i] + LUFFA_WELL_NUMBER, 2) != drawn)
            i++;
        if (i == list->n)
            return drawn;
    }
}

/* Links to as many injectors of the list as are found, four at most, with shares that total 1000. */
static int link_up(const struct list *list, uint8_t *record)
{
    size_t found[LUFFA_LINKS_MOST], n = 0, wanted = 1 + any(LUFFA_LINKS_MOST), first = any(list->n + 1);
    size_t left = LUFFA_SHARES_TOTAL;

    for (size_t i = 0; i < list->n && n < wanted; i++) {
        size_t place = (first + i) % list->n;
        if (list->records[place][LUFFA_WELL_KIND] == LUFFA_INJECTOR)
            found[n++] = place;
    }
    for (size_t k = 0; k < n; k++) {
        size_t share = k + 1 == n ? left : 1 + any(left - (n - 1 - k));
        put(record + LUFFA_LINK_INJECTOR(k), 2, number(list->records[found[k]] + LUFFA_WELL_NUMBER, 2));
        put(record + LUFFA_LINK_SHARE(k), 2, share);
        left -= share;
    }
    record[LUFFA_WELL_LINK_COUNT] = (uint8_t)n;
    return n > 0;
}

void list_put(struct list *list, size_t place, const char *who)
{
    uint8_t record[RECORD] = {0};

    if (place < list->n && !struck(list->records[place]))
        put(record + LUFFA_WELL_NUMBER, 2, number(list->records[place] + LUFFA_WELL_NUMBER, 2));
    else
        put(record + LUFFA_WELL_NUMBER, 2, list_free_number(list));
    record[LUFFA_WELL_KIND] = any(2) && link_up(list, record) ? LUFFA_PRODUCER : LUFFA_INJECTOR;
    put(record + LUFFA_WELL_RATE, 4, 1 + any(LUFFA_RATE_MOST));
    memcpy(record + LUFFA_WELL_NOTE, who, strlen(who));
    memcpy(list->records[place], record, RECORD);
    if (place == list->n)
        list->n++;
}

size_t list_close_up(struct list *list)
{
    size_t left = 0, before = list->n;

    for (size_t i = 0; i < before; i++)
        if (!struck(list->records[i]))
            memmove(list->records[left++], list->records[i], RECORD);
    list->n = left;
    return before - left;
}
