/* A planner has changed thirty wells of a full sheet in an evening, and saves them at once. What that costs is printed
   beside thirty saves of one well each; then a colleague's batch, under the digest from before, is turned away. To
   build it:
   gcc -Iinclude examples/evening/evening.c target/staticlib/libluffa.a -o evening
*/
#include <luffa.h>
#include <stdio.h>
#include <string.h>

enum { N = LUFFA_SHEET_MOST, WELLS = 30, RECORD = LUFFA_SHEET_RECORD_BYTES, MARKS_LEN = LUFFA_MARKS_FOR(N) };

/* A sheet with its marks, and the digest that is the claim of the next save. */
struct kept {
    uint8_t sheet[RECORD * N], digest[LUFFA_256_BYTES];
    uint32_t marks[MARKS_LEN];
};

static void show(const char *what, struct luffa_sheet_answer answer, const char *more)
{
    printf("%-13s answer %2u, %5u rounds%s\n", what, (unsigned)answer.number, (unsigned)answer.rounds, more);
}

static struct luffa_sheet_answer open_sheet(struct kept *k)
{
    for (unsigned i = 0; i < N; i++)
        snprintf((char *)k->sheet + RECORD * i, RECORD, "injector %u: 40 kg", i);
    return luffa_sheet_build(LUFFA_256, k->sheet, sizeof k->sheet, N, k->marks, MARKS_LEN, k->digest, sizeof k->digest);
}

/* All changes in one save; places rise, and each has its record. */
static struct luffa_sheet_answer save(struct kept *k, const size_t *places, size_t count, const uint8_t *records,
                                      const uint8_t *claim)
{
    uint8_t after[LUFFA_256_BYTES];
    struct luffa_sheet_answer answer =
        luffa_sheet_batch(LUFFA_256, k->sheet, sizeof k->sheet, N, k->marks, MARKS_LEN, places, count, records,
                          RECORD * count, claim, LUFFA_256_BYTES, after, sizeof after);

    if (answer.number == LUFFA_DONE)
        memcpy(k->digest, after, sizeof after);
    return answer;
}

/* The same changes in as many saves, each under the digest that the one before left. The rounds are those of all. */
static struct luffa_sheet_answer save_one_by_one(struct kept *k, const size_t *places, size_t count,
                                                 const uint8_t *records)
{
    struct luffa_sheet_answer all = {LUFFA_DONE, N, 0};
    uint8_t after[LUFFA_256_BYTES];

    for (size_t i = 0; i < count; i++) {
        struct luffa_sheet_answer answer =
            luffa_sheet_change(LUFFA_256, k->sheet, sizeof k->sheet, N, k->marks, MARKS_LEN, places[i],
                               records + RECORD * i, RECORD, k->digest, sizeof k->digest, after, sizeof after);
        if (answer.number != LUFFA_DONE)
            return answer;
        memcpy(k->digest, after, sizeof after);
        all.rounds += answer.rounds;
    }
    return all;
}

int main(void)
{
    static struct kept kept, other;
    static uint8_t records[RECORD * WELLS];
    uint8_t ben[LUFFA_256_BYTES];
    size_t places[WELLS];

    show("opened", open_sheet(&kept), "");
    memcpy(ben, kept.digest, sizeof ben);
    other = kept;

    for (size_t i = 0; i < WELLS; i++) {
        places[i] = 17 + 34 * i;
        snprintf((char *)records + RECORD * i, RECORD, "injector %u: 55 kg", (unsigned)places[i]);
    }
    show("one save", save(&kept, places, WELLS, records, kept.digest), "");
    struct luffa_sheet_answer thirty = save_one_by_one(&other, places, WELLS, records);
    int same = memcmp(&other, &kept, sizeof kept) == 0;
    show("thirty saves", thirty, same ? ", the same sheet, marks and digest" : ", another sheet");

    /* Ben has changed three wells of the sheet as it was opened. */
    struct luffa_sheet_answer stale = save(&kept, places + 5, 3, records, ben);
    same = memcmp(&other, &kept, sizeof kept) == 0;
    show("Ben's save", stale, same ? ", nothing altered" : ", something altered");
    return fflush(stdout) != 0;
}
