/* The works of closing up struck records. They stand apart from the other sheet calls, as archives from before have none and are compared too. */
#ifndef CLOSE_H
#define CLOSE_H

#include "work.h"

/* A copy of n records in which some of the first so many are struck: the first, and each that is a multiple of so many places after it. */
static inline const uint8_t *strike(const uint8_t *message, size_t n, size_t among, size_t step)
{
    static uint8_t struck[SHEET_RECORD * SHEET_MOST];

    memcpy(struck, message, SHEET_RECORD * n);
    for (size_t place = 0; place < among; place += step)
        memset(struck + SHEET_RECORD * place, 0, SHEET_RECORD);
    return struck;
}

/* The list of old places is in nobody's way: not on the stack, which is counted elsewhere. */
static uint16_t old_places[SHEET_MOST];

static inline struct luffa_sheet_answer close_up_of(struct job *job)
{
    struct sheet *s = job->sheet;
    return luffa_sheet_close_up(job->code, s->records, sizeof s->records, s->n, s->marks, MARKS_MOST, s->digest, DIGEST_BYTES[job->code],
                                old_places, SHEET_MOST, job->out, sizeof job->out);
}

/* As works. The sheet is put back as it was, its records from the message and its marks from the planner's own: the copying of both is in the
   figure. Or it isn't, where each call has a sheet to itself. */
static inline uint32_t archive_close_up_once(struct job *job) { return (uint32_t)close_up_of(job).number; }

static inline uint32_t archive_close_up(struct job *job)
{
    struct sheet *s = job->sheet;
    uint32_t answer = archive_close_up_once(job);

    memcpy(s->records, job->message, SHEET_RECORD * s->n);
    memcpy(s->marks, s->own, 4 * LUFFA_MARKS_FOR(s->n));
    return answer;
}

#endif
