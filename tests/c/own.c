/* Saves that bring the planner's own count and marks: what each is told when it is stale, for every group of small
   sheets and however many records were appended or dropped since; which words of the marks count; 15 in every way; and
   that a save which is done leaves what the plain one does. sheet_call judges the answer and every buffer; every set of
   refusals is in sheet_refusals.c, and wide numbers are in wide.c. */
#include "test.h"

static struct sheet opened, s;

/* The next save is this planner's, with the claim, the count and the marks that he opened. */
static void as(const struct sheet *planner)
{
    s.own_n = planner->own_n;
    s.own_len = planner->own_len;
    memcpy(s.own, planner->own, sizeof s.own);
    memcpy(s.claim, planner->claim, sizeof s.claim);
}

/* Whether the sheet is refused the call whatever else is given. */
static int never(enum call call) { return plain(call) == APPEND ? s.n == MOST : s.n == 0; }

/* Each save is stale. Where the first group that differs is before the last mark that both sheets have, it is named;
   where it isn't, all shared marks agree. */
static void told(size_t group, size_t shared)
{
    int named = group < shared;

    for (int call = CHANGE_OWN; call <= DROP_OWN; call++) {
        if (never((enum call)call))
            continue;
        struct luffa_sheet_where got = where_call(named ? LUFFA_STALE : LUFFA_STALE_TAIL, (enum call)call, &s);
        check(got.kind == (named ? LUFFA_WHERE_GROUP : LUFFA_WHERE_SAME) && got.group == (named ? group : 0) &&
                  got.pairs == (named ? group + 1 : shared),
              "%s, group %zu of %zu shared differs: kind %llu, group %llu, %llu pairs", call_names[call], group, shared,
              (unsigned long long)got.kind, (unsigned long long)got.group, (unsigned long long)got.pairs);
    }
}

static void told_tail(size_t shared) { told(shared, shared); }

/* Somebody else has brought the sheet to n records since it was opened, and changes them from the last to the first:
   the lowest that is changed decides. */
static void since(size_t n)
{
    uint8_t held[LUFFA_512_BYTES];
    size_t shared = (n < opened.n ? n : opened.n) / 4;

    s = opened;
    while (s.n > n)
        sheet_call(LUFFA_DONE, DROP, &s);
    for (; s.n < n; fill(s.record, RECORD))
        sheet_call(LUFFA_DONE, APPEND, &s);
    memcpy(held, s.claim, sizeof held);
    as(&opened);
    s.place = 0;
    if (n != opened.n)
        told_tail(shared);
    for (size_t place = n; place-- > 0;) {
        s.place = place;
        fill(s.record, RECORD);
        memcpy(s.claim, held, sizeof held);
        sheet_call(LUFFA_DONE, CHANGE, &s);
        memcpy(held, s.claim, sizeof held);
        as(&opened);
        told(place / 4, shared);
    }
}

static void every_group(size_t code)
{
    enum { SMALL = 13 };

    for (size_t own_n = 0; own_n <= SMALL; own_n++) {
        built_sheet(&opened, code, own_n, SMALL + 1 - own_n);
        for (size_t n = 0; n <= SMALL; n++)
            since(n);
    }
}

/* The ends of full sheets: another record at a place. */
static void large(size_t code)
{
    static const struct {
        size_t own_n, n, place, group, shared;
    } sheets[] = {
        {MOST, MOST, MOST - 1, 255, 256},
        {MOST, MOST, MOST - 5, 254, 256},
        {MOST, MOST, 0, 0, 256},
        {MOST - 1, MOST, MOST - 1, 255, 255},
        {MOST, MOST - 1, MOST - 2, 255, 255},
        {MOST - 1, MOST - 1, MOST - 5, 254, 255},
        {3, MOST, 0, 0, 0},
        {MOST, 4, 3, 0, 1},
    };

    for (size_t i = 0; i < COUNT_OF(sheets); i++) {
        size_t own_n = sheets[i].own_n, n = sheets[i].n;
        built_sheet(&opened, code, own_n, 1);
        any_sheet(&s, code, n, 1);
        memcpy(s.sheet, opened.sheet, RECORD * (n < own_n ? n : own_n));
        s.sheet[RECORD * sheets[i].place + 7] ^= 0x20;
        sheet_call(LUFFA_DONE, BUILD, &s);
        as(&opened);
        told(sheets[i].group, sheets[i].shared);
    }
}

/* One bit in any word of a shared mark, on either side: a word that the code uses is a difference, another isn't. */
static void every_word(size_t code)
{
    enum { N = 13, SHARED = N / 4 };
    uint32_t *const sides[] = {s.marks, s.own};

    built_sheet(&s, code, N, 1);
    s.claim[5] ^= 1;
    for (size_t m = 1; m <= SHARED; m++)
        for (size_t word = 0; word < MARK; word++)
            for (size_t side = 0; side < 2; side++) {
                uint32_t *at = sides[side] + MARK * m + word, was = *at;
                *at ^= 1u << (word + 7 * m) % 32;
                told(4 * word < state_bytes[code] ? m - 1 : SHARED, SHARED);
                *at = was;
            }
}

/* The words of unused blocks are any, in all marks of both sheets. */
static void any_unused(void)
{
    size_t used = state_bytes[s.code];

    for (size_t m = 0; m <= s.n / 4; m++)
        fill((uint8_t *)(s.marks + MARK * m) + used, 4 * MARK - used);
    for (size_t m = 0; m <= s.own_n / 4; m++)
        fill((uint8_t *)(s.own + MARK * m) + used, 4 * MARK - used);
}

/* Every set of the marks of 22 records, spoiled on one side or the other: the first pair that differs is named, and
   what comes after it doesn't matter, nor does mark 0 of the sheet held. */
static void every_set(size_t code)
{
    enum { N = 22, SHARED = N / 4 };

    for (unsigned set = 0; set < 1u << SHARED; set++) {
        size_t first = SHARED;
        built_sheet(&s, code, N, 1);
        s.claim[digest_bytes[code] - 1] ^= 0x80;
        fill((uint8_t *)s.marks, 4 * MARK);
        any_unused();
        for (size_t m = SHARED; m > 0; m--)
            if (set >> (m - 1) & 1) {
                fill((uint8_t *)(((set + m) % 2 ? s.own : s.marks) + MARK * m), state_bytes[code]);
                first = m - 1;
            }
        told(first, SHARED);
    }
}

/* Each save is refused 15, with the right claim and with a wrong one. */
static void refused(void)
{
    for (int wrong = 0; wrong < 2; wrong++, s.claim[0] ^= 1)
        for (int call = CHANGE_OWN; call <= DROP_OWN; call++)
            if (!never((enum call)call))
                sheet_call(LUFFA_OWN, (enum call)call, &s);
}

/* With a wrong claim each save is told that all shared marks agree, and isn't refused 15. */
static void accepted(size_t shared)
{
    s.claim[0] ^= 1;
    told_tail(shared);
    s.claim[0] ^= 1;
}

/* Own counts beside lengths around what they need. The sheet held has two marks after mark 0. */
static void counts_and_lengths(size_t code)
{
    static const size_t counts[] = {0, 1, 3, 4, 5, 7, 8, 11, 12, 97, MOST - 1, MOST};

    for (size_t i = 0; i < COUNT_OF(counts); i++) {
        size_t n = counts[i], needs = LUFFA_MARKS_FOR(n), shared = n < 8 ? n / 4 : 2;
        size_t few[] = {0, 1, MARK - 1, needs - MARK, needs - 1};
        size_t many[] = {needs, needs + MARK - 1, needs + MARK, COUNT_OF(s.own)};
        built_sheet(&s, code, 9, 1);
        fill((uint8_t *)(s.own + s.own_len), 4 * (COUNT_OF(s.own) - s.own_len));
        s.own_n = n;
        for (size_t k = 0; k < COUNT_OF(few); k++) {
            s.own_len = few[k];
            refused();
        }
        for (size_t k = 0; k < COUNT_OF(many); k++) {
            s.own_len = many[k];
            accepted(shared);
        }
    }
}

/* Counts that no sheet has, with room for more than the most, and with little. */
static void too_many_records(size_t code)
{
    built_sheet(&s, code, 6, 1);
    for (size_t i = 0; i < COUNT_OF(too_many); i++) {
        s.own_n = too_many[i];
        s.own_len = COUNT_OF(s.own);
        refused();
        s.own_len = MARK;
        refused();
    }
}

/* Any bit of mark 0 in a word that the code uses, and none in another. */
static void every_start(size_t code)
{
    built_sheet(&s, code, 5, 1);
    for (size_t bit = 0; bit < 32 * MARK; bit++) {
        s.own[bit / 32] ^= 1u << bit % 32;
        if (bit / 8 < state_bytes[code])
            refused();
        else
            accepted(1);
        s.own[bit / 32] ^= 1u << bit % 32;
    }
    memset(s.own, 0, 4 * MARK);
    refused();
    memcpy(s.own, s.own + MARK, 4 * MARK);
    refused();
    /* He has copied a mark 0 that was spoiled already. */
    s.marks[1] ^= 1;
    memcpy(s.own, s.marks, 4 * MARK);
    refused();
}

/* Own marks of another code begin with the starting variables of this one exactly where they have all its blocks. */
static void other_code(size_t code, size_t of_code)
{
    built_sheet(&opened, of_code, 7, 0);
    built_sheet(&s, code, 7, 1);
    memcpy(s.own, opened.own, sizeof s.own);
    if (state_bytes[of_code] < state_bytes[code]) {
        refused();
        return;
    }
    s.claim[0] ^= 1;
    told(0, 1);
}

/* Own marks don't matter to a save that is done, but for mark 0, nor does their number: the planner has opened this
   sheet, an empty one, or a full one of any marks. */
static void done_at(size_t code, size_t n, enum call call, size_t place)
{
    for (int own = 0; own < 3; own++) {
        built_sheet(&s, code, n, 1);
        s.place = place;
        if (own > 0) {
            s.own_n = own == 1 ? 0 : MOST;
            s.own_len = LUFFA_MARKS_FOR(s.own_n);
            fill((uint8_t *)(s.own + MARK), 4 * (s.own_len - MARK));
        }
        any_unused();
        as_plain_call(call, &s);
        sheet_call(LUFFA_DONE, call, &s);
    }
}

/* Every place, and of many the first and the last. */
static void done(size_t code, size_t n)
{
    for (size_t place = 0; place < n; place += n < 20 ? 1 : n - 1)
        done_at(code, n, CHANGE_OWN, place);
    if (n < MOST)
        done_at(code, n, APPEND_OWN, 0);
    if (n > 0)
        done_at(code, n, DROP_OWN, 0);
}

/* From false marks too, mark 0 among them: the claim is what follows from the last one. */
static void done_from_false_marks(size_t code, size_t n)
{
    for (size_t m = 0; m <= n / 4; m++) {
        built_sheet(&s, code, n, 1);
        fill((uint8_t *)(s.marks + MARK * m), 4 * MARK);
        from_mark(&s, n / 4, n, s.claim);
        as_plain_call(APPEND_OWN, &s);
        as_plain_call(DROP_OWN, &s);
        for (s.place = 0; s.place < n; s.place++)
            as_plain_call(CHANGE_OWN, &s);
    }
}

/* Words that are lent and mustn't be read stand on a page that nobody may touch: those behind the last mark, and those
   of its unused blocks. A stale save doesn't read them of the marks held either. */
static void hidden(size_t code)
{
    size_t unused = MARK - state_bytes[code] / 4;

    for (size_t n = 1; n <= 9; n++) {
        size_t needs = LUFFA_MARKS_FOR(n), lens[] = {needs, needs + 1, needs + MARK, COUNT_OF(s.own)};
        for (size_t i = 0; i < COUNT_OF(lens); i++) {
            built_sheet(&s, code, n, 1);
            s.own_len = lens[i];
            s.own_hidden = s.own_len - needs + unused;
            for (int call = CHANGE_OWN; call <= DROP_OWN; call++)
                as_plain_call((enum call)call, &s);
            s.own[0] ^= 1;
            refused();
            s.own[0] ^= 1;
            s.claim[1] ^= 1;
            s.marks_hidden = s.marks_len - needs + unused;
            told_tail(n / 4);
            if (n < 4)
                continue;
            s.own[needs - unused - 1] ^= 1;
            told(n / 4 - 1, n / 4);
        }
    }
}

/* ---- Two planners, from the opening on. */

static struct sheet anna, ben;

/* A planner's save is done, and he has opened what it left. */
static void saves(struct sheet *planner, enum call call, size_t place, const uint8_t *record)
{
    as(planner);
    s.place = place;
    if (record != NULL)
        memcpy(s.record, record, RECORD);
    else
        fill(s.record, RECORD);
    sheet_call(LUFFA_DONE, call, &s);
    open_own(&s);
    *planner = s;
}

/* In the group that he was told, one record isn't the one that he sees. */
static void looks(const struct sheet *planner, size_t group, size_t changed)
{
    for (size_t place = 4 * group; place < 4 * group + 4; place++)
        check((memcmp(planner->sheet + RECORD * place, s.sheet + RECORD * place, RECORD) != 0) == (place == changed),
              "group %zu is named, and record %zu isn't the changed one", group, place);
}

static void two_planners(size_t code)
{
    enum { N = 30, SHARED = N / 4 };

    built_sheet(&s, code, N, 3);
    anna = ben = s;
    saves(&anna, CHANGE_OWN, 17, NULL);
    as(&ben);
    told(4, SHARED);
    looks(&ben, 4, 17);

    /* Ben opens again and saves. Now Anna is behind. */
    ben = anna;
    saves(&ben, CHANGE_OWN, 2, NULL);
    as(&anna);
    told(0, SHARED);
    looks(&anna, 0, 2);

    /* She opens again. Ben changes a record that no mark comes after, and appends up to a mark that is his alone. */
    anna = ben;
    saves(&ben, CHANGE_OWN, N - 1, NULL);
    as(&anna);
    told_tail(SHARED);
    saves(&ben, APPEND_OWN, 0, NULL);
    saves(&ben, APPEND_OWN, 0, NULL);
    as(&anna);
    told_tail(SHARED);

    /* He takes all of it back, and her claim is right again. */
    saves(&ben, DROP_OWN, 0, NULL);
    saves(&ben, DROP_OWN, 0, NULL);
    saves(&ben, CHANGE_OWN, N - 1, anna.sheet + RECORD * (N - 1));
    saves(&anna, DROP_OWN, 0, NULL);
}

int main(void)
{
    for (size_t code = 1; code <= 4; code++) {
        every_group(code);
        large(code);
        every_word(code);
        every_set(code);
        counts_and_lengths(code);
        too_many_records(code);
        every_start(code);
        for (size_t of_code = 1; of_code <= 4; of_code++)
            other_code(code, of_code);
        for (size_t n = 0; n <= 9; n++)
            done(code, n);
        done(code, MOST - code % 2);
        for (size_t n = 1; n <= 13; n++)
            done_from_false_marks(code, n);
        hidden(code);
        two_planners(code);
    }
    return 0;
}
