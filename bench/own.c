/* Saves that bring the planner's own marks: what they leave and say, what one that is done costs beside the plain one, and one that is stale beside
   a build. */
#include "own.h"
#include "bench.h"

#include <stdio.h>

/* Whether the answer is this, and the sheet's marks are as they were built. */
static int right(const struct job *job, const char *save, struct luffa_sheet_where got, uint64_t number, uint64_t group, uint64_t pairs)
{
    const struct sheet *s = job->sheet;

    if (got.number == number && got.kind == (number == LUFFA_STALE) && got.group == group && got.pairs == pairs &&
        memcmp(s->marks, s->own, sizeof s->marks) == 0)
        return 1;
    printf("DIFFERENT: code %zu, %s of %zu records with own marks: answers %u, kind %u, group %u, %u pairs, and it is %u, group %u, %u pairs\n",
           job->code, save, s->n, (unsigned)got.number, (unsigned)got.kind, (unsigned)got.group, (unsigned)got.pairs, (unsigned)number,
           (unsigned)group, (unsigned)pairs);
    return 0;
}

/* Each save done, and stale: no mark another, and each of the first and the last five. */
static int told_all_ways(size_t code, const uint8_t *message, size_t n, size_t *compared)
{
    static struct sheet sheet;
    struct job job = sheet_job(&sheet, code, message, n);
    const struct {
        const char *name;
        own_save *save;
        const uint8_t *digest;
        size_t shared;
    } SAVES[] = {{"change", own_change, sheet.digest, n / 4},
                 {"append", own_append, sheet.digest, (n - 1) / 4},
                 {"drop", own_drop, sheet.without_last, n / 4}};

    for (size_t i = 0; i < COUNT(SAVES); i++) {
        size_t shared = SAVES[i].shared;
        if (!right(&job, SAVES[i].name, SAVES[i].save(&job), LUFFA_DONE, 0, 0))
            return 0;
        if (memcmp(job.out, SAVES[i].digest, sizeof sheet.digest) != 0) {
            printf("DIFFERENT: code %zu, %s of %zu records with own marks: another digest\n", code, SAVES[i].name, n);
            return 0;
        }
        for (size_t m = 0; m <= shared; m++) {
            if (m >= 5 && m + 5 <= shared)
                continue;
            struct luffa_sheet_where got = stale(&job, SAVES[i].save, m);
            if (!right(&job, SAVES[i].name, got, m > 0 ? LUFFA_STALE : LUFFA_STALE_TAIL, m > 0 ? m - 1 : 0, m > 0 ? m : shared))
                return 0;
            ++*compared;
        }
    }
    return 1;
}

int check_owns(const uint8_t *message) { return each_sheet("the right group, or none, told to a stale save", told_all_ways, 1, message); }

/* At the last place a change is shortest, so what own marks cost weighs most. A stale save compares all 256 marks. */
void owns(const uint8_t *message)
{
    static const struct raced DONE_CALLS[] = {{"change at 1,023", archive_change_last, NULL, 0, 0},
                                              {"with own marks", archive_change_own, "1.05", 1.05, 0}};
    static const struct raced STALE_CALLS[] = {{"build", archive_build, NULL, 0, 0},
                                               {"stale, own marks", archive_stale_own, "1/20", 1.0 / 20, LUFFA_512}};

    printf("\nChange of the last of 1,024 records with the planner's own marks, cycles per call and their ratio to the change without, best timing of"
           " each, taken in turns\n\n");
    race_sheets(message, DONE_CALLS, COUNT(DONE_CALLS), 1000);
    printf("\nStale save in 1,024 records that is told the last group, cycles per call and their ratio to a build, best timing of each, taken in"
           " turns\n\n");
    race_sheets(message, STALE_CALLS, COUNT(STALE_CALLS), 1000);
}
