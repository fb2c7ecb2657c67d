/* The works of mending a sheet's marks. They stand apart from the other sheet calls, as archives from before have none and are compared too. */
#ifndef MEND_H
#define MEND_H

#include "work.h"

/* All marks wrong: in the last word, so that every word is compared first. */
static inline void spoil_marks(struct sheet *s)
{
    for (size_t m = 0; m <= s->n / 4; m++)
        s->marks[LUFFA_MARK_WORDS * (m + 1) - 1] ^= 1;
}

static inline struct luffa_mend_answer mend_of(struct job *job)
{
    struct sheet *s = job->sheet;
    return luffa_sheet_mend(job->code, s->records, sizeof s->records, s->n, s->marks, MARKS_MOST);
}

/* As works, whose answer is 0 where so many marks were wrong: none, or all. The spoiling of a word in each is in the figure. */
static inline uint32_t archive_mend_true(struct job *job)
{
    struct luffa_mend_answer answer = mend_of(job);
    return (uint32_t)(answer.number | answer.wrong);
}

static inline uint32_t archive_mend_wrong(struct job *job)
{
    spoil_marks(job->sheet);
    struct luffa_mend_answer answer = mend_of(job);
    return (uint32_t)(answer.number | (answer.wrong ^ (job->sheet->n / 4 + 1)));
}

#endif
