/* Two planners have opened a sheet of a thousand wells. Each keeps it as it was opened: the records to look at, and
   their count, marks and digest to save with. Who is late is told which four wells to look at; or, where all marks that
   both sheets have agree, that the difference lies behind them. To build it:
   gcc -Iinclude examples/where/where.c target/staticlib/libluffa.a -o where
*/
#include <luffa.h>
#include <stdio.h>
#include <string.h>

enum { N = 1000, RECORD = LUFFA_SHEET_RECORD_BYTES, MARKS_LEN = LUFFA_MARKS_FOR(LUFFA_SHEET_MOST) };

/* A sheet with its count, its marks and its digest: the one that is held, and each planner's own. */
struct kept {
    size_t n;
    uint8_t sheet[RECORD * LUFFA_SHEET_MOST], digest[LUFFA_256_BYTES];
    uint32_t marks[MARKS_LEN];
};

static struct kept held;

static void show(const char *what, struct luffa_sheet_where answer)
{
    printf("%-25s answer %2u, %4u rounds\n", what, (unsigned)answer.number, (unsigned)answer.rounds);
}

/* Where done, the sheet held has the new count and digest, and the planner has opened it again. */
static void save_of(struct kept *own, struct luffa_sheet_where answer, const uint8_t *digest)
{
    if (answer.number != LUFFA_DONE)
        return;
    held.n = (size_t)answer.count;
    memcpy(held.digest, digest, sizeof held.digest);
    *own = held;
}

static struct luffa_sheet_where change(const char *what, struct kept *own, size_t place, const char *text)
{
    uint8_t record[RECORD] = {0}, after[LUFFA_256_BYTES];

    snprintf((char *)record, sizeof record, "%s", text);
    struct luffa_sheet_where answer = luffa_sheet_change_own(
        LUFFA_256, held.sheet, sizeof held.sheet, held.n, held.marks, MARKS_LEN, place, record, sizeof record,
        own->digest, sizeof own->digest, own->n, own->marks, MARKS_LEN, after, sizeof after);
    show(what, answer);
    save_of(own, answer, after);
    return answer;
}

static struct luffa_sheet_where append(const char *what, struct kept *own, const char *text)
{
    uint8_t record[RECORD] = {0}, after[LUFFA_256_BYTES];

    snprintf((char *)record, sizeof record, "%s", text);
    struct luffa_sheet_where answer = luffa_sheet_append_own(
        LUFFA_256, held.sheet, sizeof held.sheet, held.n, held.marks, MARKS_LEN, record, sizeof record, own->digest,
        sizeof own->digest, own->n, own->marks, MARKS_LEN, after, sizeof after);
    show(what, answer);
    save_of(own, answer, after);
    return answer;
}

/* Which wells from one place to another aren't those that the planner sees. */
static void look(const struct kept *own, size_t from, size_t to)
{
    for (size_t i = from; i < to; i++) {
        const char *here = (const char *)held.sheet + RECORD * i, *there = (const char *)own->sheet + RECORD * i;
        if (i >= own->n)
            printf("  %s, new\n", here);
        else if (i >= held.n)
            printf("  %s, gone\n", there);
        else if (memcmp(here, there, RECORD) != 0)
            printf("  %s, was %s\n", here, there);
    }
}

/* What a planner is told who is late, and then sees. */
static void told(const struct kept *own, struct luffa_sheet_where answer)
{
    size_t most = own->n > held.n ? own->n : held.n, from = 4 * (size_t)answer.pairs;

    if (answer.number == LUFFA_STALE) {
        from = 4 * (size_t)answer.group;
        printf("  look at wells %u to %u\n", (unsigned)from, (unsigned)from + 3);
        look(own, from, from + 4);
    } else if (answer.number == LUFFA_STALE_TAIL) {
        printf("  all %u marks agree: look from well %u on\n", (unsigned)answer.pairs, (unsigned)from);
        look(own, from, most);
    }
}

int main(void)
{
    static struct kept anna, ben;

    for (held.n = 0; held.n < N; held.n++)
        snprintf((char *)held.sheet + RECORD * held.n, RECORD, "injector %u: 40 kg", (unsigned)held.n);
    struct luffa_sheet_answer built = luffa_sheet_build(LUFFA_256, held.sheet, sizeof held.sheet, held.n, held.marks,
                                                        MARKS_LEN, held.digest, sizeof held.digest);
    if (built.number != LUFFA_DONE)
        return 1;
    anna = ben = held;

    change("Anna saves injector 613", &anna, 613, "injector 613: 55 kg");
    told(&ben, change("Ben saves injector 42", &ben, 42, "injector 42: 20 kg"));
    ben = held;
    change("Ben saves injector 42", &ben, 42, "injector 42: 20 kg");

    anna = held;
    append("Anna adds injector 1000", &anna, "injector 1000: 30 kg");
    told(&ben, append("Ben adds injector 1000", &ben, "injector 1000: 25 kg"));
    return fflush(stdout) != 0;
}
