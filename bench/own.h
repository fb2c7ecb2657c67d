/* The works of saves that bring the planner's own marks. They stand apart from the other sheet calls, as archives from before have none and are
   compared too. */
#ifndef OWN_H
#define OWN_H

#include "work.h"

/* A save at the last place that leaves the sheet as it was. */
typedef struct luffa_sheet_where own_save(struct job *job);

static inline struct luffa_sheet_where own_change(struct job *job)
{
    struct sheet *s = job->sheet;
    size_t last = s->n - 1;
    return luffa_sheet_change_own(job->code, s->records, sizeof s->records, s->n, s->marks, MARKS_MOST, last, job->message + SHEET_RECORD * last,
                                  SHEET_RECORD, s->digest, DIGEST_BYTES[job->code], s->n, s->own, MARKS_MOST, job->out, sizeof job->out);
}

static inline struct luffa_sheet_where own_append(struct job *job)
{
    struct sheet *s = job->sheet;
    size_t last = s->n - 1;
    return luffa_sheet_append_own(job->code, s->records, sizeof s->records, last, s->marks, MARKS_MOST, job->message + SHEET_RECORD * last,
                                  SHEET_RECORD, s->without_last, DIGEST_BYTES[job->code], s->n, s->own, MARKS_MOST, job->out, sizeof job->out);
}

static inline struct luffa_sheet_where own_drop(struct job *job)
{
    struct sheet *s = job->sheet;
    struct luffa_sheet_where answer =
        luffa_sheet_drop_own(job->code, s->records, sizeof s->records, s->n, s->marks, MARKS_MOST, s->digest, DIGEST_BYTES[job->code], s->n, s->own,
                             MARKS_MOST, job->out, sizeof job->out);
    put_back(job);
    return answer;
}

/* Other claims, and another own mark m: in the last word that the code uses, so that those before it are compared too. Twice, and all is as it
   was. */
static inline void turn(struct job *job, size_t m)
{
    static const size_t USED[CODES + 1] = {0, 24, 24, 32, 40};
    struct sheet *s = job->sheet;

    s->digest[0] ^= 1;
    s->without_last[0] ^= 1;
    if (m > 0)
        s->own[LUFFA_MARK_WORDS * m + USED[job->code] - 1] ^= 1;
}

/* A stale save, whose own mark m differs; where m is 0, none does. The drop puts back what it hasn't taken. */
static inline struct luffa_sheet_where stale(struct job *job, own_save *save, size_t m)
{
    turn(job, m);
    struct luffa_sheet_where answer = save(job);
    turn(job, m);
    return answer;
}

/* As works, whose answer is 0 where the save is done, or is told the last group before a mark. The turning is in the figure of a stale one. */
static inline uint32_t archive_change_own(struct job *job) { return (uint32_t)own_change(job).number; }

static inline uint32_t told_last(struct job *job, own_save *save, size_t shared)
{
    struct luffa_sheet_where answer = stale(job, save, shared);
    return (uint32_t)((answer.number ^ (shared > 0 ? LUFFA_STALE : LUFFA_STALE_TAIL)) | (answer.pairs ^ shared));
}

static inline uint32_t archive_stale_own(struct job *job) { return told_last(job, own_change, job->sheet->n / 4); }

/* Stale and then done, for the stack. */
static inline uint32_t both_changes_own(struct job *job) { return archive_stale_own(job) | archive_change_own(job); }
static inline uint32_t both_appends_own(struct job *job)
{
    return told_last(job, own_append, (job->sheet->n - 1) / 4) | (uint32_t)own_append(job).number;
}
static inline uint32_t both_drops_own(struct job *job)
{
    return told_last(job, own_drop, job->sheet->n / 4) | (uint32_t)own_drop(job).number;
}

#endif
