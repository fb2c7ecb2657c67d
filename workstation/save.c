/* The functions of save.h. */
#define _POSIX_C_SOURCE 200809L
#include "save.h"
#include "say.h"
#include "well.h"
#include <errno.h>
#include <inttypes.h>
#include <stdlib.h>
#include <string.h>

void claim_read(struct claim *claim, const char *digits)
{
    size_t len = strlen(digits);

    if (digits[strspn(digits, "0123456789abcdefABCDEF")] || len % 2 != 0)
        stop(USAGE, "%s isn't a digest: it has to be pairs of hexadecimal digits.", digits);
    claim->len = len / 2 > DIGEST_MOST ? DIGEST_MOST + 1 : len / 2;
    memset(claim->bytes, 0, sizeof claim->bytes);
    for (size_t i = 0; i < claim->len; i++) {
        char pair[3] = {digits[2 * i], digits[2 * i + 1], 0};
        claim->bytes[i] = (uint8_t)strtoul(pair, NULL, 16);
    }
}

static void to_digits(char digits[DIGITS_MOST], const uint8_t *bytes, size_t n)
{
    digits[0] = 0;
    for (size_t i = 0; i < n && i < DIGEST_MOST; i++)
        sprintf(digits + 2 * i, "%02x", bytes[i]);
}

void digest_digits(char digits[DIGITS_MOST], const struct sheet *sheet)
{
    to_digits(digits, sheet->digest, digest_bytes(sheet->code));
}

void claim_digits(char digits[DIGITS_MOST], const struct claim *claim)
{
    to_digits(digits, claim->bytes, claim->len);
}

void desk_open(struct desk *desk)
{
    store_open(&desk->store, &desk->sheet, NULL);
}

static void say_refused(uint64_t answer)
{
    fflush(stdout);
    fprintf(stderr, "plan: Refused, answer %" PRIu64 ". %s Nothing was saved.\n", answer, sentence(answer));
}

int claims(const struct claim *claim, const struct sheet *sheet)
{
    return claim->len == digest_bytes(sheet->code) && memcmp(claim->bytes, sheet->digest, claim->len) == 0;
}

void say_fault(const struct list *list)
{
    char words[WORDS_MOST];

    fflush(stdout);
    if (fault_words(words, list))
        fprintf(stderr, "plan: This save leaves a fault: %s.\n", words);
}

/* Where the sheet held first differs from the one that the planner opened: the library's answer to an append, or to a
   change where there is no room for one, that brings the marks of that sheet. It is stale, so it alters nothing. */
static struct luffa_sheet_where differ(struct sheet *held, const struct sheet *opened, const struct claim *claim)
{
    static const uint8_t record[RECORD];
    uint8_t out[DIGEST_MOST];
    struct list *list = &held->list;

    if (list->n < LUFFA_SHEET_MOST)
        return luffa_sheet_append_own(held->code, list->records, sizeof list->records, list->n, held->marks, MARKS_MOST,
                                      record, RECORD, claim->bytes, claim->len, opened->list.n, opened->marks,
                                      MARKS_MOST, out, DIGEST_MOST);
    return luffa_sheet_change_own(held->code, list->records, sizeof list->records, list->n, held->marks, MARKS_MOST, 0,
                                  record, RECORD, claim->bytes, claim->len, opened->list.n, opened->marks, MARKS_MOST,
                                  out, DIGEST_MOST);
}

/* Characters, as a terminal counts most of them. */
static int width(const char *text)
{
    int n = 0;

    for (; *text; text++)
        n += ((uint8_t)*text & 0xc0) != 0x80;
    return n;
}

static const char *words_at(char words[WORDS_MOST], const struct list *list, size_t place)
{
    return place < list->n ? well_words(words, record_at(list, place), 1) : "none";
}

/* The records of both sheets from one place to before another, side by side; of many the first twelve. */
static void side_by_side(const struct list *opened, const struct list *held, size_t from, size_t to)
{
    char one[WORDS_MOST], other[WORDS_MOST];
    size_t last = to - from > 12 ? from + 12 : to;
    int wide = 6;

    for (size_t i = from; i < last; i++) {
        int wanted = width(words_at(one, opened, i));
        wide = wanted > wide ? wanted : wide;
    }
    fprintf(stderr, "place  opened%*s  held now\n", wide - 6, "");
    for (size_t i = from; i < last; i++) {
        int same = i < opened->n && i < held->n && same_record(record_at(opened, i), record_at(held, i));
        const char *was = words_at(one, opened, i);
        fprintf(stderr, "%5zu  %s%*s  %s\n", i, was, wide - width(was), "",
                same ? "the same" : words_at(other, held, i));
    }
    if (last < to)
        fprintf(stderr, "and %zu places more\n", to - last);
}

/* Tells a stale planner where to look: in the group that the library names, or after the last mark that both have. */
static void tell_where(const struct luffa_sheet_where *where, const struct list *opened, const struct list *held)
{
    size_t from = (size_t)(where->kind == LUFFA_WHERE_GROUP ? 4 * where->group : 4 * where->pairs),
           to = opened->n > held->n ? opened->n : held->n;

    if (where->kind == LUFFA_WHERE_GROUP) {
        to = to > from + 4 ? from + 4 : to;
        fprintf(stderr, "The sheets first differ in group %zu, places %zu to %zu:\n", (size_t)where->group, from,
                from + 3);
    } else {
        fprintf(stderr, "The sheets are the same up to place %zu, and differ from there on:\n", from);
    }
    side_by_side(opened, held, from, to);
}

/* Keeps the planner's text, but never over another one of the same planner. Gives null, or why it isn't kept. */
static const char *keep(struct store *store, const struct kept *own)
{
    if (own->why)
        return own->why;
    switch (kept_write_new(own, store)) {
    case ANOTHER_THERE:
        return "an earlier one is, which you save or remove first";
    case NOT_WRITTEN:
        return strerror(errno);
    default:
        return NULL;
    }
}

/* The sheet that a stale planner opened is the one that had the claimed digest, which the log has. The entries that
   count stand there for good, so the others needn't wait while it is looked for. */
#if defined(__GNUC__)
__attribute__((noreturn))
#endif
static void turn_away(struct desk *desk, const struct claim *claim, const struct kept *own)
{
    static struct sheet opened;
    struct luffa_sheet_where where = {.number = LUFFA_STALE};
    const char *why = own ? keep(&desk->store, own) : NULL;
    int known;

    store_leave(&desk->store);
    if (own && !why && !going_on[0])
        going_on = " Your text is kept.";
    opened.code = desk->sheet.code;
    known = store_had(&desk->store, &desk->sheet, claim->bytes, &opened.list);
    if (known && sheet_build(&opened) == LUFFA_DONE)
        where = differ(&desk->sheet, &opened, claim);

    say_refused(where.number);
    if (known)
        tell_where(&where, &opened.list, &desk->sheet.list);
    else
        fprintf(stderr, "No sheet that its log knows had the digest that was given.\n");
    fprintf(stderr, "The sheet that is held now has ");
    print_digest(stderr, desk->sheet.digest, digest_bytes(desk->sheet.code));
    if (why)
        fprintf(stderr, "Your text isn't kept: %s.\n", why);
    else if (own)
        kept_say(own, &desk->store);
    exit((int)where.number);
}

void desk_save(struct desk *desk, const struct steps *steps, const struct claim *claim, const char *who,
               const struct kept *own)
{
    static struct sheet next;
    static struct entry entry;
    uint64_t answer;

    next = desk->sheet;
    answer = steps_make(&next, steps, claim->bytes, claim->len);
    if (answer == LUFFA_STALE)
        turn_away(desk, claim, own);
    desk->saved = answer == LUFFA_DONE && steps->n > 0;
    if (desk->saved) {
        memset(entry.who, 0, WHO);
        memcpy(entry.who, who, strlen(who));
        memcpy(entry.before, desk->sheet.digest, DIGEST_MOST);
        memcpy(entry.after, next.digest, DIGEST_MOST);
        entry.steps = *steps;
        desk->unsure = !store_save(&desk->store, &next, &entry);
        desk->sheet = next;
        return;
    }
    store_leave(&desk->store);
    if (answer == LUFFA_DONE)
        return;
    say_refused(answer);
    if (answer == LUFFA_CLAIM)
        fprintf(stderr, "At its code %zu they have %zu digits.\n", desk->sheet.code,
                2 * digest_bytes(desk->sheet.code));
    exit((int)answer);
}

int desk_answer(const struct desk *desk)
{
    const struct sheet *sheet = &desk->sheet;

    printf("%s: %zu record%s\n", desk->saved ? "saved" : "nothing to save", sheet->list.n, many(sheet->list.n));
    print_digest(stdout, sheet->digest, digest_bytes(sheet->code));
    return printed(UNSURE) != 0 || desk->unsure ? UNSURE : LUFFA_DONE;
}
