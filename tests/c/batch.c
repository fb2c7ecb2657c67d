/* Many changes in one save: what each set of them leaves and costs beside the same saved one by one, sets that are
   empty, full or in one group, a batch that brings nothing new, two planners, all or none, and marks that are false.
   sheet_call judges the answer, the sheet, the marks and the digest; the refusals in every way are in
   sheet_refusals.c. */
#include "test.h"

static struct sheet s, one, built, copy;

static void same(const struct sheet *other, const char *words)
{
    check(memcmp(s.sheet, other->sheet, sizeof s.sheet) == 0 && memcmp(s.marks, other->marks, sizeof s.marks) == 0 &&
              memcmp(s.claim, other->claim, digest_bytes[s.code]) == 0,
          "batch of %zu changes, the first at %zu, in %zu records at code %zu: %s leaves another sheet", s.places_len,
          s.places[0], s.n, s.code, words);
}

/* Saves the batch, and on a copy its changes one by one, each with the claim right at its time. Both leave the same,
   and what build would; the batch takes no more rounds, and for one change as many. */
static void as_one_by_one(void)
{
    uint64_t single = 0;

    one = s;
    for (size_t i = 0; i < s.places_len; i++) {
        one.place = s.places[i];
        memcpy(one.record, s.records + RECORD * i, RECORD);
        single += sheet_call(LUFFA_DONE, CHANGE, &one).rounds;
    }
    uint64_t rounds = sheet_call(LUFFA_DONE, BATCH, &s).rounds;
    check(s.places_len == 0 || (s.places_len == 1 ? rounds == single : rounds <= single),
          "batch of %zu changes in %zu records at code %zu: %llu rounds, one by one %llu", s.places_len, s.n, s.code,
          (unsigned long long)rounds, (unsigned long long)single);
    same(&one, "one by one");
    copy = s;
    sheet_call(LUFFA_DONE, BUILD, &copy);
    same(&copy, "build");
}

/* The rounds stand here by number; sheet_call has the formulas. */
static void rounds_by_number(void)
{
    static const struct {
        size_t code, n, count, first, step, rounds;
    } batches[] = {
        {LUFFA_256, 0, 0, 0, 0, 2},
        {LUFFA_512, 0, 0, 0, 0, 3},
        {LUFFA_256, 5, 0, 0, 0, 3},
        {LUFFA_256, 5, 1, 4, 0, 6},
        {LUFFA_256, 5, 1, 0, 0, 11},
        {LUFFA_256, 5, 2, 0, 4, 11},
        {LUFFA_256, 5, 5, 0, 1, 11},
        {LUFFA_256, 8, 2, 4, 3, 9},
        {LUFFA_384, 7, 3, 4, 1, 12},
        {LUFFA_224, 1023, 2, 0, 1022, 1285},
        {LUFFA_256, 1024, 30, 17, 34, 1264},
        {LUFFA_512, 1024, 0, 0, 0, 3},
        {LUFFA_512, 1024, 1, 1023, 0, 11},
        {LUFFA_512, 1024, 64, 960, 1, 86},
        {LUFFA_512, 1024, 64, 15, 16, 1271},
        {LUFFA_512, 1024, 64, 0, 16, 1286},
    };

    for (size_t i = 0; i < COUNT_OF(batches); i++) {
        built_sheet(&s, batches[i].code, batches[i].n, 0);
        batch_of(&s, batches[i].count, batches[i].first, batches[i].step);
        uint64_t rounds = sheet_call(LUFFA_DONE, BATCH, &s).rounds;
        check(rounds == batches[i].rounds, "batch of %zu changes in %zu records at code %zu: %llu rounds", s.places_len,
              s.n, s.code, (unsigned long long)rounds);
    }
}

/* Every set of the places 0, step and so on, each from the sheet as built; the empty set is one. */
static void every_set(size_t code, size_t n, size_t step, size_t more)
{
    size_t places = (n + step - 1) / step;

    built_sheet(&built, code, n, more);
    for (unsigned set = 0; set < 1u << places; set++) {
        s = built;
        batch_of(&s, 0, 0, 0);
        for (size_t i = 0; i < places; i++)
            if (set >> i & 1)
                s.places[s.places_len++] = i * step;
        s.records_len = RECORD * s.places_len;
        as_one_by_one();
    }
}

/* The ends of large sheets, and as many changes as there can be: in a row, and spread. */
static void large(size_t code, size_t n)
{
    size_t batches[][3] = {
        {0, 0, 0}, {1, 0, 0}, {1, n - 1, 0}, {2, 0, n - 1}, {4, (n - 1) / 4 * 4 - 4, 1},
        {CHANGES, 0, 1}, {CHANGES, n - CHANGES, 1}, {CHANGES, n % 16, n / CHANGES},
    };

    built_sheet(&s, code, n, 0);
    for (size_t i = 0; i < COUNT_OF(batches); i++) {
        batch_of(&s, batches[i][0], batches[i][1], batches[i][2]);
        fill(s.records, s.records_len);
        sheet_call(LUFFA_DONE, BATCH, &s);
    }
}

/* Records equal to the old ones are taken and change nothing; and what is changed and changed back, all at once, has
   its old digest again. */
static void nothing_new(size_t code, size_t n)
{
    built_sheet(&built, code, n, 1);
    s = built;
    sheet_call(LUFFA_DONE, BATCH, &s);
    for (int again = 0; again < 2; again++) {
        for (size_t i = 0; i < s.places_len; i++)
            memcpy(s.records + RECORD * i, built.sheet + RECORD * s.places[i], RECORD);
        sheet_call(LUFFA_DONE, BATCH, &s);
        same(&built, "the way back");
    }
}

/* Under a digest from before no batch is saved, not even an empty one, and nothing moves. */
static void behind(const uint8_t *seen)
{
    uint8_t held[LUFFA_512_BYTES];

    memcpy(held, s.claim, sizeof held);
    memcpy(s.claim, seen, sizeof held);
    for (size_t count = 0; count <= s.n; count++) {
        batch_of(&s, count, s.n - count, 1);
        fill(s.records, s.records_len);
        sheet_call(LUFFA_STALE, BATCH, &s);
    }
    memcpy(s.claim, held, sizeof held);
}

/* Two planners have opened the same sheet. Whoever is second is turned away, after a batch and after a single save; the
   first one's next batch is taken. */
static void two_planners(size_t code)
{
    uint8_t seen[LUFFA_512_BYTES];

    built_sheet(&s, code, 30, 1);
    for (int call = APPEND; call <= BATCH; call++) {
        memcpy(seen, s.claim, sizeof seen);
        /* The same records again would leave the digest that was seen. */
        fill(s.records, s.records_len);
        sheet_call(LUFFA_DONE, (enum call)call, &s);
        behind(seen);
        sheet_call(LUFFA_DONE, BATCH, &s);
    }
}

/* A full batch that one thing is wrong with: any of its places, its last record, its claim. Nothing of it is made, and
   without that all of it. */
static void all_or_none(size_t code)
{
    enum { N = 100, FIRST = 30 };
    enum { ENOUGH = RECORD * CHANGES };
    static const size_t lens[] = {0, CHANGES, RECORD, ENOUGH - RECORD, ENOUGH - 1, ENOUGH + 1, ENOUGH + RECORD - 1,
                                  ENOUGH + RECORD};

    built_sheet(&s, code, N, 0);
    batch_of(&s, CHANGES, FIRST, 1);
    for (size_t i = 1; i < CHANGES; i++) {
        s.places[i] = FIRST + i - 1;
        sheet_call(LUFFA_SET, BATCH, &s);
        s.places[i] = 0;
        sheet_call(LUFFA_SET, BATCH, &s);
        s.places[i] = FIRST + i;
    }
    for (size_t i = 0; i < COUNT_OF(lens); i++) {
        s.records_len = lens[i];
        sheet_call(LUFFA_SIZE, BATCH, &s);
    }
    s.claim[digest_bytes[code] - 1] ^= 1;
    batch_of(&s, CHANGES, FIRST, 1);
    sheet_call(LUFFA_STALE, BATCH, &s);
    s.claim[digest_bytes[code] - 1] ^= 1;

    /* The last place, and all from the middle on, are no record's. */
    batch_of(&s, CHANGES, N - CHANGES + 1, 1);
    sheet_call(LUFFA_PLACE, BATCH, &s);
    batch_of(&s, CHANGES, N - CHANGES / 2, 1);
    sheet_call(LUFFA_PLACE, BATCH, &s);
    /* That they don't rise is judged before that, wherever it is. */
    s.places[CHANGES - 1] = FIRST;
    sheet_call(LUFFA_SET, BATCH, &s);
    batch_of(&s, 2, N + 1, 0);
    sheet_call(LUFFA_SET, BATCH, &s);
    batch_of(&s, CHANGES + 1, 0, 1);
    sheet_call(LUFFA_SET, BATCH, &s);

    batch_of(&s, CHANGES, N - CHANGES, 1);
    sheet_call(LUFFA_DONE, BATCH, &s);
}

/* From false marks too a batch leaves what its changes leave one by one, and its digest follows from the lowest changed
   group's mark as it is found. */
static void from_false_marks(const struct sheet *found)
{
    size_t n = found->n, d = digest_bytes[found->code];
    uint64_t rounds = rounds_from(found, n / 4);
    uint8_t digest[LUFFA_512_BYTES];

    one = *found;
    memcpy(one.out, one.claim, d);
    for (size_t i = 0; i < found->places_len; i++) {
        struct luffa_sheet_answer got =
            luffa_sheet_change(one.code, one.sheet, one.sheet_len, n, one.marks, one.marks_len, one.places[i],
                               one.records + RECORD * i, RECORD, one.claim, d, one.out, one.out_len);
        check(got.number == LUFFA_DONE, "change at %zu from false marks", one.places[i]);
        memcpy(one.claim, one.out, d);
    }
    if (found->places_len > 0) {
        rounds += rounds_from(found, found->places[0] / 4);
        from_mark(&one, found->places[0] / 4, n, digest);
        check(memcmp(digest, one.out, d) == 0, "changes from a false mark");
    }
    found_call(rounds, BATCH, found, &one);
}

/* Every set of false marks of 13 records. The claim is what follows from the last one; where this is false, the digest
   of the sheet is stale. */
static void false_marks(size_t code)
{
    enum { N = 13, Q = N / 4 };
    static const size_t batches[][3] = {{0, 0, 0}, {1, 12, 0}, {2, 8, 3}, {3, 4, 4}, {4, 1, 3}, {13, 0, 1}};

    for (unsigned set = 1; set < 1u << (Q + 1); set++) {
        built_sheet(&s, code, N, 2);
        falsify(&s, set);
        if (set >> Q & 1)
            sheet_call(LUFFA_STALE, BATCH, &s);
        from_mark(&s, Q, N, s.claim);
        for (size_t i = 0; i < COUNT_OF(batches); i++) {
            batch_of(&s, batches[i][0], batches[i][1], batches[i][2]);
            from_false_marks(&s);
        }
    }
}

int main(void)
{
    rounds_by_number();
    for (size_t code = 1; code <= 4; code++) {
        for (size_t n = 0; n <= 5; n++)
            every_set(code, n, 1, n % 3);
        every_set(code, 14, 3, 1);
        /* One in each group. */
        every_set(code, 21, 4, 0);
        large(code, 97);
        large(code, MOST - code % 2);
        for (size_t n = 0; n <= 9; n++)
            nothing_new(code, n);
        two_planners(code);
        all_or_none(code);
        false_marks(code);
    }
    built_sheet(&s, LUFFA_384, 4 * CHANGES, 0);
    batch_of(&s, CHANGES, 3, 4);
    as_one_by_one();
    built_sheet(&s, LUFFA_512, MOST, 0);
    batch_of(&s, 30, 17, 34);
    as_one_by_one();
    return 0;
}
