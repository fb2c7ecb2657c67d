/* The works of many changes in one save. They stand apart from the other sheet calls, as archives from before have none and are compared too. */
#ifndef BATCH_H
#define BATCH_H

#include "work.h"

/* Gives how many places there are: so many, or all where there are fewer records, spread evenly from the first on. */
static inline size_t spread(size_t *places, size_t most, size_t n)
{
    size_t count = n < most ? n : most;

    for (size_t i = 0; i < count; i++)
        places[i] = i * n / count;
    return count;
}

/* Records equal to the old ones, as in a change. They are put together each time, which is in the figure, and not on the stack, which is
   counted elsewhere. */
static inline uint32_t batch_of(struct job *job, size_t most)
{
    static size_t places[LUFFA_CHANGES_MOST];
    static uint8_t records[SHEET_RECORD * LUFFA_CHANGES_MOST];
    struct sheet *s = job->sheet;
    size_t count = spread(places, most, s->n);

    for (size_t i = 0; i < count; i++)
        memcpy(records + SHEET_RECORD * i, job->message + SHEET_RECORD * places[i], SHEET_RECORD);
    return (uint32_t)luffa_sheet_batch(job->code, s->records, sizeof s->records, s->n, s->marks, MARKS_MOST, places, count, records,
                                       SHEET_RECORD * count, s->digest, DIGEST_BYTES[job->code], job->out, sizeof job->out)
        .number;
}

static inline uint32_t archive_batch_64(struct job *job) { return batch_of(job, LUFFA_CHANGES_MOST); }
static inline uint32_t archive_batch_30(struct job *job) { return batch_of(job, 30); }

/* The same thirty saved one by one. */
static inline uint32_t archive_30_changes(struct job *job)
{
    size_t places[30], count = spread(places, COUNT(places), job->sheet->n);
    uint32_t answer = LUFFA_DONE;

    for (size_t i = 0; i < count; i++)
        answer |= change_at(job, places[i]);
    return answer;
}

#endif
