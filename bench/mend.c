/* Mending marks: the marks that build leaves, and what it costs beside the build. */
#include "mend.h"
#include "bench.h"

#include <stdio.h>

/* The mender finds these marks wrong, and leaves all those that build left. */
static int mended(struct job *job, const uint32_t *built, uint64_t wrong, uint64_t first)
{
    size_t n = job->sheet->n;
    struct luffa_mend_answer answer = mend_of(job);

    if (answer.number == LUFFA_DONE && answer.wrong == wrong && answer.first == first && answer.rounds == 5 * (n / 4) &&
        memcmp(job->sheet->marks, built, sizeof job->sheet->marks) == 0)
        return 1;
    printf("DIFFERENT: code %zu, mend of %zu records, of whose marks %u are wrong, the first is %u: answers %u, %u wrong, first %u, %u rounds\n",
           job->code, n, (unsigned)wrong, (unsigned)first, (unsigned)answer.number, (unsigned)answer.wrong, (unsigned)answer.first,
           (unsigned)answer.rounds);
    return 0;
}

/* No mark wrong, each of the first and the last five, and all. */
static int mended_all_ways(size_t code, const uint8_t *message, size_t n, size_t *compared)
{
    static struct sheet sheet;
    static uint32_t built[MARKS_MOST];
    struct job job = sheet_job(&sheet, code, message, n);
    size_t last = n / 4;

    memcpy(built, sheet.marks, sizeof built);
    if (!mended(&job, built, 0, 0))
        return 0;
    for (size_t m = 0; m <= last; m++) {
        if (m >= 5 && m + 5 <= last)
            continue;
        memset(sheet.marks + LUFFA_MARK_WORDS * m, FILL, 4 * LUFFA_MARK_WORDS);
        if (!mended(&job, built, 1, m))
            return 0;
        ++*compared;
    }
    spoil_marks(&sheet);
    *compared += 2;
    return mended(&job, built, last + 1, 0);
}

int check_mends(const uint8_t *message) { return each_sheet("the same marks as build's after a mend", mended_all_ways, 0, message); }

/* The mending of a full sheet against its build, which makes a few rounds more. */
void mends(const uint8_t *message)
{
    static const struct raced CALLS[] = {{"build", archive_build, NULL, 0, 0},
                                         {"mend of true marks", archive_mend_true, "1.10", 1.10, 0},
                                         {"mend, all wrong", archive_mend_wrong, "1.10", 1.10, 0}};

    printf("\nMarks of 1,024 records, cycles per call and their ratio to the build, best timing of each, taken in turns\n\n");
    race_sheets(message, CALLS, COUNT(CALLS), 1000);
}
