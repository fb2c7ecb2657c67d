/* The works on a message that stops inside a byte: its last byte has the job's odd bits. */
#ifndef BITS_H
#define BITS_H

#include "work.h"

static inline uint32_t archive_digest_bits(struct job *job)
{
    return luffa_digest_bits(job->code, job->message, job->len, job->odd, job->out, sizeof job->out);
}

static inline uint32_t archive_feed_bits(struct job *job)
{
    return luffa_feed_bits(job->record, sizeof job->record, job->message, job->len, job->odd);
}

static inline uint32_t archive_hash_feed_bits(struct job *job) { return luffa_hash_feed_bits(&job->hash, job->message, job->len, job->odd); }

/* Half of the message is fed whole, so that the odd byte comes to a record that holds something. */
static inline uint32_t feed_halves(struct job *job)
{
    size_t half = job->len / 2;
    uint32_t answer = luffa_feed(job->record, sizeof job->record, job->message, half);

    return answer | luffa_feed_bits(job->record, sizeof job->record, job->message + half, job->len - half, job->odd);
}

static inline uint32_t hash_feed_halves(struct job *job)
{
    size_t half = job->len / 2;
    uint32_t answer = luffa_hash_feed(&job->hash, job->message, half);

    return answer | luffa_hash_feed_bits(&job->hash, job->message + half, job->len - half, job->odd);
}

#endif
