/* The works for longer output: as many words as the job asks for. */
#ifndef OUTPUT_H
#define OUTPUT_H

#include "bits.h"

_Static_assert(4 * LUFFA_WORDS_MOST < OUT_BYTES, "there is room for all words, and for bytes after them");

/* The answer of a work: the call's, or 1000 and the rounds where these aren't as many as the words take. */
static inline uint32_t of_words(const struct job *job, struct luffa_output_answer answer)
{
    if (answer.number == LUFFA_DONE && answer.rounds != (job->words + 7) / 8)
        return (uint32_t)(1000 + answer.rounds);
    return (uint32_t)answer.number;
}

static inline uint32_t archive_output(struct job *job)
{
    return of_words(job, luffa_output(job->code, job->words, job->message, job->len, job->out, sizeof job->out));
}

static inline uint32_t archive_output_bits(struct job *job)
{
    return of_words(job, luffa_output_bits(job->code, job->words, job->message, job->len, job->odd, job->out, sizeof job->out));
}

static inline uint32_t archive_finish_output(struct job *job)
{
    return of_words(job, luffa_finish_output(job->record, sizeof job->record, job->words, job->out, sizeof job->out));
}

static inline uint32_t archive_hash_finish_output(struct job *job)
{
    return of_words(job, luffa_hash_finish_output(&job->hash, job->words, job->out, sizeof job->out));
}

#endif
