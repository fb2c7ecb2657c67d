/* The functions of changes.h. */
#include "changes.h"

void index_wells(struct index *index, const struct list *list)
{
    for (size_t i = 0; i < 65536; i++)
        index->place[i] = NONE;
    /* Number 0 is no well's. */
    index->place[0] = SEVERAL;
    for (size_t i = 0; i < list->n; i++) {
        uint16_t *place = &index->place[well_number(record_at(list, i))];
        *place = *place == NONE ? (uint16_t)i : SEVERAL;
    }
}

const uint8_t *well_of(const struct list *list, const struct index *index, size_t number)
{
    return index->place[number] == NONE ? NULL : record_at(list, index->place[number]);
}

static struct index in_before, in_after;

/* Whether a number tells a well in both lists. */
static int tells(size_t number)
{
    return in_before.place[number] != SEVERAL && in_after.place[number] != SEVERAL;
}

static void print_line(FILE *to, size_t place, size_t number, const uint8_t *before, const uint8_t *after)
{
    char words[WORDS_MOST];
    int numbered = !tells(number);

    fprintf(to, "  %s %zu: ", numbered ? "place" : "well", numbered ? place : number);
    if (!before)
        fprintf(to, "new: %s\n", well_words(words, after, numbered));
    else if (!after)
        fprintf(to, "taken away: %s\n", well_words(words, before, numbered));
    else {
        fprintf(to, "%s", well_words(words, before, numbered));
        fprintf(to, " -> %s\n", well_words(words, after, numbered));
    }
}

/* The record of the other list that one is held against, or null. */
static const uint8_t *other(const struct list *list, const struct index *index, size_t place, size_t number)
{
    if (tells(number))
        return well_of(list, index, number);
    return place < list->n && !tells(well_number(record_at(list, place))) ? record_at(list, place) : NULL;
}

void changes_print(FILE *to, const struct list *before, const struct list *after)
{
    static const uint8_t zeros[RECORD];
    size_t moved = 0;

    index_wells(&in_before, before);
    index_wells(&in_after, after);
    for (size_t i = 0; i < before->n; i++) {
        const uint8_t *record = record_at(before, i), *now;
        size_t number = well_number(record);

        now = other(after, &in_after, i, number);
        if (!now && tells(number) && i < after->n && struck(record_at(after, i)))
            now = zeros;
        if (!now && struck(record))
            continue;
        if (!now || !same_record(record, now))
            print_line(to, i, number, record, now);
        else if (tells(number) && in_after.place[number] != i)
            moved++;
    }
    for (size_t i = 0; i < after->n; i++) {
        const uint8_t *record = record_at(after, i);
        size_t number = well_number(record);

        if (!struck(record) && !other(before, &in_before, i, number))
            print_line(to, i, number, NULL, record);
    }
    if (moved > 0)
        fprintf(to, "  %zu well%s at another place\n", moved, moved == 1 ? " stands" : "s stand");
}
