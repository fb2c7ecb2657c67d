/* Sheets that are built and saved: document 01's examples, every call at every place of small sheets
   and at the ends of full ones, two planners, and what marks may hold. */
#include "test.h"

static struct sheet s, copy;

static void expect_rounds(enum call call, uint64_t rounds)
{
    size_t n = s.n;
    uint64_t got = sheet_call(LUFFA_DONE, call, &s).rounds;

    check(got == rounds, "%s of %zu at code %zu: %llu rounds", call_names[call], n, s.code, (unsigned long long)got);
}

static int zero_mark(size_t m)
{
    for (size_t k = 0; k < MARK; k++)
        if (s.marks[MARK * m + k] != 0)
            return 0;
    return 1;
}

/* Document 01, "Examples at the edges". The numbers stand here a second time; sheet_call has the
   formulas. */
static void examples(void)
{
    static const size_t n[] = {0, 1, 4}, rounds[] = {2, 3, 7};

    for (size_t i = 0; i < 3; i++) {
        any_sheet(&s, LUFFA_256, n[i], 0);
        expect_rounds(BUILD, rounds[i]);
    }
    any_sheet(&s, LUFFA_512, MOST, 0);
    expect_rounds(BUILD, 1283);

    built_sheet(&s, LUFFA_256, 5, 0);
    s.place = 4;
    expect_rounds(CHANGE, 6);
    s.place = 0;
    expect_rounds(CHANGE, 11);
    s.place = 5;
    sheet_call(LUFFA_PLACE, CHANGE, &s);

    built_sheet(&s, LUFFA_512, MOST, 0);
    s.place = 0;
    expect_rounds(CHANGE, 1286);
    s.place = 1023;
    expect_rounds(CHANGE, 11);

    built_sheet(&s, LUFFA_256, 3, 1);
    memset(s.marks + MARK, 0, 4 * MARK);
    expect_rounds(APPEND, 12);
    check(!zero_mark(1), "append at 3 writes mark 1");
    expect_rounds(DROP, 7);
    check(zero_mark(1), "drop at 4 zeroes mark 1");
}

/* Every call on a sheet of n records, each from the sheet as built. The buffers are just large enough
   for the call, or `more` records larger. */
static void each_call(size_t code, size_t n, size_t more)
{
    any_sheet(&s, code, n, more);
    sheet_call(LUFFA_DONE, BUILD, &s);
    copy = s;
    for (size_t place = 0; place < n; place++) {
        /* Of many places those at both ends, and one between. */
        if (place > 5 && place + 6 < n && place != n / 2)
            continue;
        s = copy;
        s.place = place;
        sheet_call(LUFFA_DONE, CHANGE, &s);
        /* The same record again: the same digest. */
        sheet_call(LUFFA_DONE, CHANGE, &s);
        /* And back. */
        memcpy(s.record, copy.sheet + RECORD * place, RECORD);
        sheet_call(LUFFA_DONE, CHANGE, &s);
        check(memcmp(s.claim, copy.claim, digest_bytes[code]) == 0, "changed back at %zu: another digest", place);
    }
    if (n > 0) {
        s = copy;
        sheet_call(LUFFA_DONE, DROP, &s);
        /* The room is used again, and the sheet is as it was. */
        memcpy(s.record, copy.sheet + RECORD * (n - 1), RECORD);
        sheet_call(LUFFA_DONE, APPEND, &s);
        check(memcmp(s.claim, copy.claim, digest_bytes[code]) == 0 &&
                  memcmp(s.marks, copy.marks, 4 * s.marks_len) == 0,
              "dropped from %zu and appended again: another sheet", n);
    }
    if (n < MOST && more > 0) {
        s = copy;
        sheet_call(LUFFA_DONE, APPEND, &s);
        sheet_call(LUFFA_DONE, DROP, &s);
        check(memcmp(s.claim, copy.claim, digest_bytes[code]) == 0, "appended to %zu and dropped: another digest", n);
    }
}

/* From nothing to `most` records and down to nothing again; what is left is mark 0 and zeros. */
static void up_and_down(size_t code, size_t most)
{
    built_sheet(&s, code, 0, most);
    for (size_t n = 0; n < most; n++) {
        fill(s.record, RECORD);
        sheet_call(LUFFA_DONE, APPEND, &s);
    }
    sheet_call(LUFFA_FULL, APPEND, &s);
    for (size_t n = most; n > 0; n--)
        sheet_call(LUFFA_DONE, DROP, &s);
    sheet_call(LUFFA_PLACE, DROP, &s);
    for (size_t i = 0; i < s.sheet_len; i++)
        check(s.sheet[i] == 0, "byte %zu of a dropped record stays", i);
    for (size_t m = 1; m <= most / 4; m++)
        check(zero_mark(m), "mark %zu stays", m);
}

/* Two planners open the same sheet. The first to save gets through, the second doesn't until it opens
   again, whatever it wanted to save. */
static void two_planners(size_t code)
{
    uint8_t seen[LUFFA_512_BYTES], first[LUFFA_512_BYTES];

    built_sheet(&s, code, 6, 2);
    memcpy(seen, s.claim, sizeof seen);
    s.place = 1;
    sheet_call(LUFFA_DONE, CHANGE, &s);
    memcpy(first, s.claim, sizeof first);

    memcpy(s.claim, seen, sizeof seen);
    fill(s.record, RECORD);
    s.place = 5;
    sheet_call(LUFFA_STALE, CHANGE, &s);
    sheet_call(LUFFA_STALE, APPEND, &s);
    sheet_call(LUFFA_STALE, DROP, &s);

    sheet_call(LUFFA_DONE, BUILD, &s);
    check(memcmp(s.claim, first, digest_bytes[code]) == 0, "a build after a save: another digest");
    sheet_call(LUFFA_DONE, CHANGE, &s);

    /* Now the first one is behind. */
    memcpy(seen, s.claim, sizeof seen);
    memcpy(s.claim, first, sizeof first);
    sheet_call(LUFFA_STALE, DROP, &s);
    memcpy(s.claim, seen, sizeof seen);
    sheet_call(LUFFA_DONE, DROP, &s);
}

/* A claim that is wrong in one bit, any of them, is stale. */
static void one_bit(size_t code, size_t n)
{
    built_sheet(&s, code, n, 1);
    for (size_t bit = 0; bit < 8 * digest_bytes[code]; bit++) {
        s.claim[bit / 8] ^= (uint8_t)(1 << bit % 8);
        sheet_call(LUFFA_STALE, APPEND, &s);
        sheet_call(LUFFA_STALE, CLOSE_UP, &s);
        if (n > 0) {
            sheet_call(LUFFA_STALE, CHANGE, &s);
            sheet_call(LUFFA_STALE, DROP, &s);
        }
        s.claim[bit / 8] ^= (uint8_t)(1 << bit % 8);
    }
    sheet_call(LUFFA_DONE, APPEND, &s);
}

/* Words of unused blocks aren't read. sheet_call wants them kept in a mark that isn't written and
   zero in one that is. */
static void unused_words(size_t code, size_t n)
{
    for (int call = BUILD; call <= CLOSE_UP; call++)
        for (size_t place = 0; place < n; place += 3) {
            any_sheet(&s, code, n, 1);
            if (call == CLOSE_UP)
                strike(&s, place);
            sheet_call(LUFFA_DONE, BUILD, &s);
            for (size_t m = 0; m <= n / 4; m++)
                fill((uint8_t *)(s.marks + MARK * m) + state_bytes[code], 4 * MARK - state_bytes[code]);
            s.place = place;
            sheet_call(LUFFA_DONE, (enum call)call, &s);
        }
}

/* A false last mark: the digest held is the one that follows from it, the sheet's own is stale. */
static void false_mark(size_t code, size_t n)
{
    uint8_t held[LUFFA_512_BYTES], after[LUFFA_512_BYTES];
    size_t q = n / 4;

    built_sheet(&s, code, n, 1);
    s.marks[MARK * q + state_bytes[code] / 4 - 1] ^= 1;
    s.place = n - 1;
    sheet_call(LUFFA_STALE, CHANGE, &s);
    sheet_call(LUFFA_STALE, APPEND, &s);
    sheet_call(LUFFA_STALE, DROP, &s);

    from_mark(&s, q, n, held);
    memcpy(s.sheet + RECORD * n, s.record, RECORD);
    from_mark(&s, q, n + 1, after);
    struct luffa_sheet_answer got =
        luffa_sheet_append(code, s.sheet, s.sheet_len, n, s.marks, s.marks_len, s.record, RECORD, held,
                           digest_bytes[code], s.out, s.out_len);
    check(got.number == LUFFA_DONE && got.count == n + 1 && memcmp(s.out, after, digest_bytes[code]) == 0,
          "append at %zu from a false mark", n);
    got = luffa_sheet_drop(code, s.sheet, s.sheet_len, n + 1, s.marks, s.marks_len, after, digest_bytes[code], s.out,
                           s.out_len);
    check(got.number == LUFFA_DONE && got.count == n && memcmp(s.out, held, digest_bytes[code]) == 0,
          "drop at %zu from a false mark", n + 1);

    /* The last record changed: from this mark, or from the one before it where the last group is empty. */
    uint8_t old[RECORD];
    memcpy(old, s.sheet + RECORD * s.place, RECORD);
    memcpy(s.sheet + RECORD * s.place, s.record, RECORD);
    from_mark(&s, s.place / 4, n, after);
    memcpy(s.sheet + RECORD * s.place, old, RECORD);
    got = luffa_sheet_change(code, s.sheet, s.sheet_len, n, s.marks, s.marks_len, s.place, s.record, RECORD, held,
                             digest_bytes[code], s.out, s.out_len);
    check(got.number == LUFFA_DONE && got.count == n && memcmp(s.out, after, digest_bytes[code]) == 0,
          "change at %zu from a false mark", s.place);
}

int main(void)
{
    static const size_t large[] = {97, 1020, 1021, 1022, 1023, 1024};

    examples();
    for (size_t code = 1; code <= 4; code++) {
        for (size_t n = 0; n <= 14; n++)
            for (size_t more = 0; more <= 4; more += 2)
                each_call(code, n, more);
        for (size_t i = 0; i < sizeof large / sizeof *large; i++)
            each_call(code, large[i], i % 2);
        up_and_down(code, 13);
        two_planners(code);
        for (size_t n = 0; n <= 5; n++)
            one_bit(code, n);
        for (size_t n = 1; n <= 9; n++) {
            unused_words(code, n);
            false_mark(code, n);
        }
    }
    return 0;
}
