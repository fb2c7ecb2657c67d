/* The functions of well.h. */
#include "well.h"
#include <stdarg.h>
#include <string.h>

void well_read(struct well *well, const uint8_t *record)
{
    well->number = (uint32_t)get_number(record + LUFFA_WELL_NUMBER, 2);
    well->kind = record[LUFFA_WELL_KIND];
    well->links = record[LUFFA_WELL_LINK_COUNT];
    well->rate = (uint32_t)get_number(record + LUFFA_WELL_RATE, 4);
    for (size_t k = 0; k < LINKS; k++) {
        well->link[k].injector = (uint32_t)get_number(record + LUFFA_LINK_INJECTOR(k), 2);
        well->link[k].share = (uint32_t)get_number(record + LUFFA_LINK_SHARE(k), 2);
    }
    memcpy(well->note, record + LUFFA_WELL_NOTE, NOTE);
    for (well->note_len = NOTE; well->note_len > 0 && well->note[well->note_len - 1] == 0;)
        well->note_len--;
}

void well_write(const struct well *well, uint8_t *record)
{
    put_number(record + LUFFA_WELL_NUMBER, 2, well->number);
    record[LUFFA_WELL_KIND] = (uint8_t)well->kind;
    record[LUFFA_WELL_LINK_COUNT] = (uint8_t)well->links;
    put_number(record + LUFFA_WELL_RATE, 4, well->rate);
    for (size_t k = 0; k < LINKS; k++) {
        put_number(record + LUFFA_LINK_INJECTOR(k), 2, well->link[k].injector);
        put_number(record + LUFFA_LINK_SHARE(k), 2, well->link[k].share);
    }
    memcpy(record + LUFFA_WELL_NOTE, well->note, NOTE);
}

int links_fit(const struct well *well)
{
    for (size_t k = well->links; k < LINKS; k++)
        if (well->link[k].injector != 0 || well->link[k].share != 0)
            return 0;
    return well->links <= LINKS;
}

int struck(const uint8_t *record)
{
    static const uint8_t zeros[RECORD];

    return same_record(record, zeros);
}

size_t well_number(const uint8_t *record)
{
    return get_number(record + LUFFA_WELL_NUMBER, 2);
}

size_t place_of(const struct list *list, size_t number)
{
    size_t found = list->n;

    for (size_t i = 0; number > 0 && i < list->n; i++)
        if (well_number(record_at(list, i)) == number) {
            if (found < list->n)
                return list->n + 1;
            found = i;
        }
    return found;
}

/* Adds to words that are being put together; what doesn't fit is left out. */
#if defined(__GNUC__)
__attribute__((format(printf, 2, 3)))
#endif
static void add(char words[WORDS_MOST], const char *more, ...)
{
    size_t len = strlen(words);
    va_list arguments;

    va_start(arguments, more);
    vsnprintf(words + len, WORDS_MOST - len, more, arguments);
    va_end(arguments);
}

static void add_kind(char words[WORDS_MOST], const struct well *well)
{
    if (well->kind == LUFFA_PRODUCER)
        add(words, "producer");
    else if (well->kind == LUFFA_INJECTOR)
        add(words, "injector");
    else
        add(words, "kind %u", well->kind);
}

const char *well_words(char words[WORDS_MOST], const uint8_t *record, int numbered)
{
    struct well well;
    char note[TEXT_MOST(NOTE)];

    words[0] = 0;
    if (struck(record)) {
        add(words, "struck");
        return words;
    }
    well_read(&well, record);
    add_kind(words, &well);
    if (numbered)
        add(words, " %u", well.number);
    add(words, ", %u t a day", well.rate);
    for (size_t k = 0; k < LINKS && k < well.links; k++)
        add(words, "%s%u %u", k == 0 ? ": " : ", ", well.link[k].injector, well.link[k].share);
    for (size_t k = well.links; k < LINKS; k++)
        if (well.link[k].injector != 0 || well.link[k].share != 0)
            add(words, " (unused: %u %u)", well.link[k].injector, well.link[k].share);
    if (well.links > LINKS)
        add(words, " (%u links)", well.links);
    if (well.note_len > 0) {
        text_from_bytes(note, well.note, well.note_len);
        add(words, "; %s", note);
    }
    return words;
}

static void add_links(char words[WORDS_MOST], const struct list *list, const struct well *well)
{
    for (size_t k = 0; k < LINKS && k < well->links; k++) {
        uint32_t number = well->link[k].injector;
        int there = 0, injector = 0;

        for (size_t i = 0; i < list->n; i++)
            if (!struck(record_at(list, i)) && well_number(record_at(list, i)) == number) {
                there = 1;
                injector = injector || record_at(list, i)[LUFFA_WELL_KIND] == LUFFA_INJECTOR;
            }
        if (!injector) {
            add(words, "link %zu names well %u, which %s", k + 1, number,
                there ? "is no injector" : "isn't on this sheet");
            return;
        }
        for (size_t i = 0; i < k; i++)
            if (well->link[i].injector == number) {
                add(words, "links %zu and %zu both name injector %u", i + 1, k + 1, number);
                return;
            }
    }
    add(words, "the links are wrong");
}

static void add_link_count(char words[WORDS_MOST], const struct well *well)
{
    if (well->kind == LUFFA_INJECTOR)
        add(words, "an injector has no links, and this one has %u", well->links);
    else if (well->links > LINKS)
        add(words, "there are %u links, more than %d", well->links, LINKS);
    else if (well->links == 0)
        add(words, "the rate is %u, and there is no link", well->rate);
    else
        add(words, "the rate is 0, and there %s %u link%s", well->links == 1 ? "is" : "are", well->links,
            well->links == 1 ? "" : "s");
}

static void add_shares(char words[WORDS_MOST], const struct well *well)
{
    uint32_t total = 0;

    for (size_t k = 0; k < LINKS && k < well->links; k++) {
        if (well->link[k].share == 0 || well->link[k].share > LUFFA_SHARES_TOTAL) {
            add(words, "the share of link %zu is %u, not 1 to %d", k + 1, well->link[k].share, LUFFA_SHARES_TOTAL);
            return;
        }
        total += well->link[k].share;
    }
    add(words, "the shares total %u, not %d", total, LUFFA_SHARES_TOTAL);
}

/* The rules in the library's order. Which is broken the library has said; here it is only put into words, so that a
   sheet that this function misreads is still told its rule. */
static void add_broken(char words[WORDS_MOST], const struct list *list, uint64_t rule, size_t place)
{
    struct well well;
    size_t at = 0;

    well_read(&well, record_at(list, place));
    switch (rule) {
    case LUFFA_RULE_NUMBER:
        add(words, "the number is 0");
        return;
    case LUFFA_RULE_KIND:
        add(words, "the kind is %u, neither producer (1) nor injector (2)", well.kind);
        return;
    case LUFFA_RULE_LINK_COUNT:
        add_link_count(words, &well);
        return;
    case LUFFA_RULE_RATE:
        add(words, "the rate is %u, over %d", well.rate, LUFFA_RATE_MOST);
        return;
    case LUFFA_RULE_LINKS:
        add_links(words, list, &well);
        return;
    case LUFFA_RULE_SHARES:
        add_shares(words, &well);
        return;
    case LUFFA_RULE_UNUSED_LINKS:
        for (at = well.links; at + 1 < LINKS && well.link[at].injector == 0 && well.link[at].share == 0;)
            at++;
        add(words, "link %zu isn't used, and isn't empty", at + 1);
        return;
    case LUFFA_RULE_REPEAT:
        while (at < place && well_number(record_at(list, at)) != well.number)
            at++;
        add(words, "place %zu has this number already", at);
        return;
    default:
        add(words, "rule %llu is broken", (unsigned long long)rule);
    }
}

const char *fault_words(char words[WORDS_MOST], const struct list *list)
{
    struct luffa_content_answer found = luffa_plan_check(list->records, sizeof list->records, list->n);
    size_t number;

    words[0] = 0;
    if (found.number != LUFFA_DONE)
        add(words, "the check answers %llu", (unsigned long long)found.number);
    if (found.number != LUFFA_DONE || found.rule == LUFFA_SOUND)
        return found.number == LUFFA_DONE ? NULL : words;
    number = well_number(record_at(list, found.place));
    add(words, "place %zu", (size_t)found.place);
    if (number > 0)
        add(words, ", well %zu", number);
    add(words, ": ");
    add_broken(words, list, found.rule, found.place);
    return words;
}
