/* Struck wells that are closed up: every set of them in small sheets, the ends of full ones, records that are nearly
   struck, lists that are too short, a second close up, appends into the freed room, saves beside a plain list, planners
   who are late, and marks that are false. sheet_call judges the answer, the sheet, the marks, the list and the digest;
   the refusals in every way are in sheet_refusals.c, and wide numbers are in wide.c. */
#include "test.h"

static struct sheet s, built, copy;

static const uint8_t zeros[RECORD];

static void same(const struct sheet *other, const char *words)
{
    check(s.n == other->n && memcmp(s.sheet, other->sheet, sizeof s.sheet) == 0 &&
              memcmp(s.marks, other->marks, sizeof s.marks) == 0 &&
              memcmp(s.claim, other->claim, digest_bytes[s.code]) == 0,
          "close up to %zu records at code %zu: %s leaves another sheet", s.n, s.code, words);
}

/* Strikes so many records, the first at this place and each so many places after the one before. */
static void struck(size_t count, size_t first, size_t step)
{
    for (size_t i = 0; i < count; i++)
        strike(&s, first + i * step);
    sheet_call(LUFFA_DONE, BUILD, &s);
}

/* Closes up twice. The first time leaves what a build of the plain list does; the second time nothing is struck, so
   that each place is its old one, nothing changes, and the rounds are those of the check once more. */
static void closes_up(void)
{
    sheet_call(LUFFA_DONE, CLOSE_UP, &s);
    copy = s;
    sheet_call(LUFFA_DONE, BUILD, &copy);
    same(&copy, "build");
    copy = s;
    uint64_t rounds = sheet_call(LUFFA_DONE, CLOSE_UP, &s).rounds;
    check(rounds == 2 * (s.n % 4 + 1 + final_rounds[s.code]),
          "a second close up of %zu records at code %zu: %llu rounds", s.n, s.code, (unsigned long long)rounds);
    same(&copy, "a second one");
    for (size_t k = 0; k < s.n; k++)
        check(s.old[k] == k, "a second close up: place %zu was %u", k, s.old[k]);
}

/* Counts, rounds and some old places stand here by number; sheet_call has the formulas. */
static void by_number(void)
{
    static const struct {
        size_t code, n, count, first, step, left, rounds, place, old;
    } sheets[] = {
        {LUFFA_256, 0, 0, 0, 0, 0, 4, 0, 0},
        {LUFFA_512, 0, 0, 0, 0, 0, 6, 0, 0},
        {LUFFA_256, 1, 1, 0, 0, 0, 5, 0, 0},
        {LUFFA_256, 5, 0, 0, 0, 5, 6, 4, 4},
        {LUFFA_256, 5, 1, 4, 0, 4, 5, 3, 3},
        {LUFFA_256, 5, 1, 0, 0, 4, 10, 0, 1},
        {LUFFA_256, 5, 2, 0, 4, 3, 8, 2, 3},
        {LUFFA_256, 5, 5, 0, 1, 0, 5, 0, 0},
        {LUFFA_256, 8, 1, 7, 0, 7, 7, 6, 6},
        {LUFFA_256, 8, 4, 4, 1, 4, 4, 3, 3},
        {LUFFA_384, 7, 3, 4, 1, 4, 9, 3, 3},
        {LUFFA_224, 1023, 2, 0, 1022, 1021, 1283, 1020, 1021},
        {LUFFA_512, 1024, 0, 0, 0, 1024, 6, 1023, 1023},
        {LUFFA_512, 1024, 1, 1023, 0, 1023, 9, 1022, 1022},
        {LUFFA_512, 1024, 256, 0, 2, 768, 966, 256, 512},
        {LUFFA_512, 1024, 1024, 0, 1, 0, 6, 0, 0},
    };

    for (size_t i = 0; i < COUNT_OF(sheets); i++) {
        any_sheet(&s, sheets[i].code, sheets[i].n, 0);
        struck(sheets[i].count, sheets[i].first, sheets[i].step);
        struct luffa_sheet_answer got = sheet_call(LUFFA_DONE, CLOSE_UP, &s);
        check(got.count == sheets[i].left && got.rounds == sheets[i].rounds &&
                  (sheets[i].left == 0 || s.old[sheets[i].place] == sheets[i].old),
              "close up of %zu records at code %zu, %zu of them struck: %llu left, %llu rounds", sheets[i].n, s.code,
              sheets[i].count, (unsigned long long)got.count, (unsigned long long)got.rounds);
    }
}

/* Every set of struck places, from buffers that are just large enough, or larger. */
static void every_set(size_t code, size_t n, size_t more)
{
    built_sheet(&built, code, n, more);
    for (unsigned set = 0; set < 1u << n; set++) {
        s = built;
        for (size_t place = 0; place < n; place++)
            if (set >> place & 1)
                strike(&s, place);
        sheet_call(LUFFA_DONE, BUILD, &s);
        closes_up();
    }
}

static void large(size_t code, size_t n)
{
    /* At both ends and at the edges of groups, in rows and spread. */
    const size_t sets[][3] = {
        {0, 0, 0},         {1, 0, 0},     {1, n - 1, 0},           {2, 0, n - 1},   {1, n / 4 * 4 - 1, 0},
        {n / 2, n / 2, 1}, {n / 2, 0, 1}, {(n / 2 + 1) / 2, 0, 2}, {n / 4, 3, 4},   {n - 1, 0, 1},
        {n - 1, 1, 1},     {n, 0, 1},     {4, n / 8 * 4, 1},       {n / 16, 5, 16}, {8, n - 8, 1},
    };

    for (size_t i = 0; i < COUNT_OF(sets); i++) {
        any_sheet(&s, code, n, i % 2);
        struck(sets[i][0], sets[i][1], sets[i][2]);
        closes_up();
    }
}

/* A record of one bit for every bit that there is, and records of two bytes whose sum has no low bits, each after a
   struck one: all of them stay, those of notes too. */
static void nearly_struck(size_t code)
{
    enum { BITS = 8 * RECORD, NEARLY = BITS + RECORD - 1 };

    any_sheet(&s, code, 2 * NEARLY, 0);
    memset(s.sheet, 0, s.sheet_len);
    for (size_t i = 0; i < NEARLY; i++) {
        uint8_t *record = s.sheet + RECORD * (2 * i + 1);
        if (i < BITS)
            record[i / 8] = (uint8_t)(1 << i % 8);
        else
            record[i - BITS] = record[i - BITS + 1] = 0x80;
    }
    sheet_call(LUFFA_DONE, BUILD, &s);
    check(sheet_call(LUFFA_DONE, CLOSE_UP, &s).count == NEARLY, "a bit doesn't keep its record at code %zu", code);
    for (size_t i = 0; i < NEARLY; i++)
        check(s.old[i] == 2 * i + 1, "nearly struck record %zu was at %u", i, s.old[i]);
}

/* What lies behind the sheet is no record of it, struck or not, and stays where it is. The words behind the marks stand
   on a page that nobody may touch. */
static void behind(size_t code)
{
    for (size_t n = 0; n <= 9; n++)
        for (size_t first = 0; first <= n; first++) {
            any_sheet(&s, code, n, 5);
            for (size_t place = n; place < n + 5; place += 2)
                strike(&s, place);
            struck(n - first, first, 1);
            s.marks_hidden = s.marks_len - LUFFA_MARKS_FOR(n);
            sheet_call(LUFFA_DONE, CLOSE_UP, &s);
        }
}

/* A list has to be as long as there are records, however many of them are struck. */
static void short_lists(size_t code)
{
    for (size_t n = 1; n <= 5; n++)
        for (size_t count = 0; count <= n; count++) {
            any_sheet(&s, code, n, 0);
            struck(count, n - count, 1);
            for (s.old_len = 0; s.old_len < n; s.old_len++)
                sheet_call(LUFFA_PLACES, CLOSE_UP, &s);
            sheet_call(LUFFA_DONE, CLOSE_UP, &s);
        }
}

/* The room that is freed takes as many records as were struck, though nothing behind the old sheet is lent; then there
   is no more. */
static void refilled(size_t code, size_t n, size_t count, size_t first, size_t step)
{
    any_sheet(&s, code, n, 0);
    struck(count, first, step);
    sheet_call(LUFFA_FULL, APPEND, &s);
    sheet_call(LUFFA_DONE, CLOSE_UP, &s);
    for (size_t i = 0; i < count; i++) {
        fill(s.record, RECORD);
        sheet_call(LUFFA_DONE, APPEND, &s);
    }
    check(s.n == n, "%zu records closed up and filled again: %zu", n, s.n);
    sheet_call(LUFFA_FULL, APPEND, &s);
    copy = s;
    sheet_call(LUFFA_DONE, BUILD, &copy);
    same(&copy, "build, after appends,");
}

/* ---- Beside a plain list. */

static uint8_t list[RECORD * ROOM_FOR];
static size_t listed;

static void save_listed(enum call call)
{
    uint8_t digest[LUFFA_512_BYTES];

    sheet_call(LUFFA_DONE, call, &s);
    luffa_digest(s.code, list, RECORD * listed, digest, sizeof digest);
    check(s.n == listed && memcmp(s.sheet, list, RECORD * listed) == 0 &&
              memcmp(s.claim, digest, digest_bytes[s.code]) == 0,
          "%s at code %zu: not the plain list of %zu records", call_names[call], s.code, listed);
}

static void change_listed(size_t place, const uint8_t *record)
{
    s.place = place;
    memcpy(s.record, record, RECORD);
    memcpy(list + RECORD * place, record, RECORD);
    save_listed(CHANGE);
}

static void append_listed(const uint8_t *record)
{
    memcpy(s.record, record, RECORD);
    memcpy(list + RECORD * listed++, record, RECORD);
    save_listed(APPEND);
}

static void close_listed(void)
{
    size_t left = 0;

    for (size_t i = 0; i < listed; i++)
        if (memcmp(list + RECORD * i, zeros, RECORD) != 0)
            memmove(list + RECORD * left++, list + RECORD * i, RECORD);
    listed = left;
    save_listed(CLOSE_UP);
}

/* A season of saves: wells are struck by changes, struck records are appended, dropped and brought back, and now and
   then the sheet is closed up. */
static void season(size_t code, size_t n)
{
    enum { SAVES = 150 };

    built_sheet(&s, code, n, 3);
    memcpy(list, s.sheet, RECORD * n);
    listed = n;
    for (size_t i = 0; i < SAVES; i++) {
        uint8_t any[3], record[RECORD];
        fill(any, sizeof any);
        fill(record, RECORD);
        int full = RECORD * listed == s.sheet_len;
        if (any[0] % 8 == 0) {
            close_listed();
        } else if (any[0] % 8 < 4 && !full) {
            append_listed(any[1] % 4 == 0 ? zeros : record);
        } else if (any[0] % 8 < 7 && listed > 0) {
            change_listed(any[2] % listed, any[1] % 2 == 0 ? zeros : record);
        } else if (listed > 0) {
            listed--;
            save_listed(DROP);
        }
    }
}

/* ---- Planners who are late. */

static struct sheet opened;

/* Under the digest that he opened with every save of the late planner is stale, his own close up too. With his own
   marks he is told this group, or that all shared marks agree. */
static void late(size_t group)
{
    uint8_t held[LUFFA_512_BYTES];
    size_t shared = (s.n < opened.n ? s.n : opened.n) / 4;
    int named = group < shared;

    memcpy(held, s.claim, sizeof held);
    memcpy(s.claim, opened.claim, sizeof held);
    for (int call = CHANGE; call <= DROP_OWN; call++) {
        s.place = 0;
        if (plain((enum call)call) != APPEND && call != BATCH && call != CLOSE_UP && s.n == 0)
            continue;
        batch_of(&s, s.n > 0, 0, 0);
        struct luffa_sheet_where got =
            where_call(brings_own((enum call)call) && !named ? LUFFA_STALE_TAIL : LUFFA_STALE, (enum call)call, &s);
        check(!brings_own((enum call)call) || !named || got.group == group,
              "%s after a close up from group %zu on is told group %llu", call_names[call], group,
              (unsigned long long)got.group);
    }
    memcpy(s.claim, held, sizeof held);
}

/* Both have opened the sheet, and the first closes it up. A close up that takes nothing away leaves the digest, so that
   nobody is late. */
static void two_planners(size_t code, size_t n, size_t count, size_t first)
{
    any_sheet(&s, code, n, 1);
    struck(count, first, 1);
    open_own(&s);
    opened = s;
    sheet_call(LUFFA_DONE, CLOSE_UP, &s);
    late(first / 4);
    /* The second opens again, and appends; now the first is late. */
    opened = s;
    open_own(&s);
    sheet_call(LUFFA_DONE, APPEND, &s);
    late(opened.n / 4);
    sheet_call(LUFFA_DONE, CLOSE_UP, &s);
    sheet_call(LUFFA_DONE, DROP, &s);
    same(&opened, "an append and a drop after it");
}

/* ---- False marks. */

/* The claim is what follows from the last mark as it is found, and the work starts from the first struck group's as
   that is found. */
static void from_false_marks(const struct sheet *found)
{
    copy = *found;
    size_t m = closed_up(&copy);
    marks_from(&copy, m);
    from_mark(&copy, m, copy.n, copy.out);
    found_call(rounds_from(found, found->n / 4) + rounds_from(&copy, m), CLOSE_UP, found, &copy);
}

/* Every set of false marks of 14 records; where the last one is false, the digest of the sheet is stale. */
static void false_marks(size_t code)
{
    enum { N = 14, Q = N / 4 };
    static const size_t sets[][3] = {
        {0, 0, 0}, {1, 0, 0}, {1, 3, 0},  {1, 4, 0}, {1, 11, 0}, {1, 13, 0}, {4, 4, 1},
        {3, 2, 4}, {2, 8, 5}, {2, 12, 1}, {6, 8, 1}, {10, 4, 1}, {13, 1, 1}, {14, 0, 1},
    };

    for (size_t i = 0; i < COUNT_OF(sets); i++)
        for (unsigned set = 1; set < 1u << (Q + 1); set++) {
            any_sheet(&s, code, N, 2);
            struck(sets[i][0], sets[i][1], sets[i][2]);
            falsify(&s, set);
            if (set >> Q & 1)
                sheet_call(LUFFA_STALE, CLOSE_UP, &s);
            from_mark(&s, Q, N, s.claim);
            from_false_marks(&s);
        }
}

int main(void)
{
    by_number();
    for (size_t code = 1; code <= 4; code++) {
        for (size_t n = 0; n <= 9; n++)
            every_set(code, n, n % 3);
        large(code, 97);
        large(code, MOST - code % 2);
        nearly_struck(code);
        behind(code);
        short_lists(code);
        for (size_t n = 1; n <= 9; n++)
            for (size_t count = 1; count <= n; count++)
                refilled(code, n, count, n - count, 1);
        refilled(code, MOST, 6, 3, 200);
        season(code, 5);
        season(code, 9 + code);
        for (size_t first = 0; first < 9; first++)
            for (size_t count = 1; count <= 9 - first; count++)
                two_planners(code, 9, count, first);
        false_marks(code);
    }
    return 0;
}
