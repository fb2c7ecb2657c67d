/* Spoiled marks that are mended: each by itself, in each of its words, in every set, all and none; marks that follow
   from one another and yet are false; what saves do before and after; and each refusal, alone and before those that
   come later. mend_call judges the answer, every mark, and that nothing else changes. */
#include "test.h"

static struct sheet s, copy, built;

/* Mends: so many marks were wrong. Then they are those that build leaves, where its buffers are the same, and a second
   mend finds none. */
static void mends(uint64_t wrong, uint64_t first, uint64_t rounds)
{
    struct luffa_mend_answer got = mend_call(LUFFA_DONE, &s);

    check(got.wrong == wrong && got.first == first && got.rounds == rounds,
          "mend of %zu records at code %zu: %llu wrong, first %llu, %llu rounds, and it is %llu, %llu, %llu", s.n,
          s.code, (unsigned long long)got.wrong, (unsigned long long)got.first, (unsigned long long)got.rounds,
          (unsigned long long)wrong, (unsigned long long)first, (unsigned long long)rounds);
    copy = s;
    sheet_call(LUFFA_DONE, BUILD, &copy);
    check(memcmp(s.marks, copy.marks, sizeof s.marks) == 0, "mend of %zu records at code %zu: not build's marks", s.n,
          s.code);
    check(mend_call(LUFFA_DONE, &s).wrong == 0, "mended marks of %zu records at code %zu are wrong again", s.n, s.code);
}

static void spoil(size_t mark, size_t word, uint32_t bits) { s.marks[MARK * mark + word] ^= bits; }

/* The rounds are those of the full groups alone: none of the last records', none of the final stage. They stand here
   by number; mend_call has the formula. Words and bytes after the sheet's own are any. */
static void ends(size_t code, size_t more)
{
    static const struct {
        size_t n, rounds;
    } sheets[] = {{0, 0}, {1, 0}, {3, 0}, {4, 5}, {5, 5}, {7, 5}, {8, 10}, {97, 120}, {MOST - 1, 1275}, {MOST, 1280}};

    for (size_t i = 0; i < COUNT_OF(sheets); i++) {
        size_t n = sheets[i].n, q = n / 4, rounds = sheets[i].rounds, marks[] = {0, q / 2, q};
        /* Any words at all. */
        any_sheet(&s, code, n, more);
        mends(q + 1, 0, rounds);
        mends(0, 0, rounds);
        for (size_t k = 0; k < COUNT_OF(marks); k++) {
            spoil(marks[k], 11 * k, 1u << 31 >> 7 * k);
            mends(1, marks[k], rounds);
        }
        /* What a disk that lost them gives back. */
        memset(s.marks, 0, 4 * LUFFA_MARKS_FOR(n));
        mends(q + 1, 0, rounds);
    }
}

/* Every set of the marks of 13 records. */
static void every_set(size_t code)
{
    enum { N = 13, MARKS = N / 4 + 1 };

    built_sheet(&s, code, N, 1);
    for (unsigned set = 1; set < 1u << MARKS; set++) {
        size_t wrong = 0, first = 0;
        for (size_t m = MARKS; m-- > 0;)
            if (set >> m & 1) {
                spoil(m, set % MARK, set);
                wrong++;
                first = m;
            }
        mends(wrong, first, 15);
    }
}

/* One bit in any word of a mark. */
static void every_word(size_t code)
{
    built_sheet(&s, code, 9, 0);
    for (size_t m = 0; m <= 2; m++)
        for (size_t word = 0; word < MARK; word++) {
            spoil(m, word, 1u << (word + 13 * m) % 32);
            mends(1, m, 10);
        }
}

/* No save reads a word of an unused block, so one goes through before the mend, and keeps the word in a mark that it
   doesn't write. Code 4 has no such block. */
static void unused_words(size_t code)
{
    enum { N = 9 };

    for (size_t word = state_bytes[code] / 4; word < MARK; word++)
        for (size_t m = 0; m <= N / 4; m++)
            for (int call = CHANGE; call <= CLOSE_UP; call++) {
                built_sheet(&s, code, N, 1);
                spoil(m, word, 1u << word % 32);
                s.place = N - 1;
                batch_of(&s, 1, N - 1, 0);
                sheet_call(LUFFA_DONE, (enum call)call, &s);
                mends(1, m, 10);
            }
}

/* A false last mark makes every save stale. Once it is mended, the digest that build gave is the claim again. */
static void saves(size_t code, size_t n)
{
    for (int call = CHANGE; call <= CLOSE_UP; call++) {
        built_sheet(&built, code, n, 1);
        s = built;
        spoil(n / 4, 0, 1);
        sheet_call(LUFFA_STALE, (enum call)call, &s);
        mends(1, n / 4, 5 * (n / 4));
        sheet_call(LUFFA_DONE, (enum call)call, &s);
        sheet_call(LUFFA_DONE, (enum call)call, &built);
        check(memcmp(s.claim, built.claim, digest_bytes[code]) == 0 &&
                  memcmp(s.marks, built.marks, sizeof s.marks) == 0,
              "%s of %zu records at code %zu after a mend: another sheet", call_names[call], n, code);
        mend_call(LUFFA_DONE, &s);
    }
}

/* A record that isn't the one that was marked: every mark after it is wrong, though each follows from the one before.
   One behind the last full group has no mark after it. */
static void other_record(size_t code)
{
    enum { N = 14 };

    for (size_t place = 0; place < N; place++) {
        size_t before = place / 4 + 1, wrong = N / 4 + 1 - before;
        built_sheet(&s, code, N, 0);
        s.sheet[RECORD * place + RECORD - 1] ^= 1;
        mends(wrong, wrong > 0 ? before : 0, 15);
    }
}

/* The marks of another code are wrong from the starting variables on, but those of codes 1 and 2 are the same. */
static void other_code(size_t code, size_t of_code)
{
    int same = code == of_code || (code <= 2 && of_code <= 2);

    built_sheet(&s, of_code, 11, 0);
    s.code = code;
    s.out_len = digest_bytes[code];
    mends(same ? 0 : 3, 0, 10);
}

/* A mark in the place of another. */
static void exchanged(size_t code)
{
    uint32_t mark[MARK];

    built_sheet(&s, code, 20, 2);
    memcpy(mark, s.marks + MARK * 2, sizeof mark);
    memcpy(s.marks + MARK * 2, s.marks + MARK * 4, sizeof mark);
    memcpy(s.marks + MARK * 4, mark, sizeof mark);
    mends(2, 2, 25);
}

/* The first in the order that holds, or that none does. */
static uint64_t first_refusal(void)
{
    if (s.code < 1 || s.code > 4)
        return LUFFA_WIDTH;
    if (s.n > MOST || s.sheet_len < RECORD * s.n)
        return LUFFA_SHEET;
    return s.marks_len < LUFFA_MARKS_FOR(s.n) ? LUFFA_MARKS : LUFFA_DONE;
}

/* Every code beside every count, and both beside lengths that are just enough, one less, and none. Mark 0 is wrong
   each time. */
static void refusals(void)
{
    static const size_t few[] = {0, 1, 3, 4, 5, 8};
    static const size_t codes = 4 + COUNT_OF(no_code), counts = COUNT_OF(few) + COUNT_OF(too_many);

    any_sheet(&s, LUFFA_256, 8, 0);
    for (size_t i = 0; i < codes; i++)
        for (size_t j = 0; j < counts; j++)
            for (size_t k = 0; k < 9; k++) {
                size_t n = j < COUNT_OF(few) ? few[j] : too_many[j - COUNT_OF(few)], room = n <= 8 ? n : 8;
                size_t sheet_lens[] = {RECORD * room, RECORD * room - (room > 0), 0};
                size_t marks_lens[] = {LUFFA_MARKS_FOR(room), LUFFA_MARKS_FOR(room) - 1, 0};
                s.code = i < 4 ? i + 1 : no_code[i - 4];
                s.n = n;
                s.sheet_len = sheet_lens[k % 3];
                s.marks_len = marks_lens[k / 3];
                fill((uint8_t *)s.marks, 4 * MARK);
                mend_call(first_refusal(), &s);
            }
}

/* The same around a full sheet, and one record more than there can be, though there is room for it. */
static void full_refusals(size_t code)
{
    any_sheet(&s, code, MOST, 0);
    s.sheet_len--;
    mend_call(LUFFA_SHEET, &s);
    s.marks_len--;
    mend_call(LUFFA_SHEET, &s);
    s.sheet_len++;
    mend_call(LUFFA_MARKS, &s);
    s.marks_len -= MARK - 1;
    mend_call(LUFFA_MARKS, &s);
    s.n = MOST - 1;
    mends(256, 0, 1275);
    s.n = MOST + 1;
    s.sheet_len = sizeof s.sheet;
    s.marks_len = COUNT_OF(s.marks);
    mend_call(LUFFA_SHEET, &s);
    s.n = SIZE_MAX / RECORD + 1;
    mend_call(LUFFA_SHEET, &s);
    s.n = MOST;
    mend_call(LUFFA_DONE, &s);
}

static void answers(struct luffa_mend_answer got, uint64_t number, uint64_t wrong, const char *words)
{
    check(got.number == number && got.wrong == wrong && got.first == 0 && got.rounds == 0,
          "%s: answered %llu, %llu wrong, first %llu, %llu rounds", words, (unsigned long long)got.number,
          (unsigned long long)got.wrong, (unsigned long long)got.first, (unsigned long long)got.rounds);
}

/* Buffers without bytes or words may be null pointers. */
static void null_pointers(size_t code)
{
    uint32_t marks[MARK] = {0};

    answers(luffa_sheet_mend(0, NULL, 0, 1, NULL, 0), LUFFA_WIDTH, 0, "nothing");
    answers(luffa_sheet_mend(code, NULL, 0, 1, NULL, 0), LUFFA_SHEET, 0, "no sheet of one record, no marks");
    answers(luffa_sheet_mend(code, NULL, 0, 1, marks, MARK), LUFFA_SHEET, 0, "no sheet of one record");
    answers(luffa_sheet_mend(code, NULL, 0, 0, NULL, 0), LUFFA_MARKS, 0, "no marks");
    check(marks[0] == 0, "refused, and something written");
    answers(luffa_sheet_mend(code, NULL, 0, 0, marks, MARK), LUFFA_DONE, 1, "no sheet");
    answers(luffa_sheet_mend(code, NULL, 0, 0, marks, MARK), LUFFA_DONE, 0, "no sheet, mended");
}

int main(void)
{
    for (size_t code = 1; code <= 4; code++) {
        ends(code, 0);
        ends(code, 5);
        every_set(code);
        every_word(code);
        unused_words(code);
        for (size_t n = 1; n <= 9; n++)
            saves(code, n);
        other_record(code);
        for (size_t of_code = 1; of_code <= 4; of_code++)
            other_code(code, of_code);
        exchanged(code);
        full_refusals(code);
        null_pointers(code);
    }
    refusals();
    return 0;
}
