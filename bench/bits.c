/* Messages that stop inside a byte: the same digests as portable C, and what the odd bits cost. */
#include "bits.h"
#include "bench.h"
#include "portable.h"

#include <stdio.h>

static uint32_t portable_c_digest_bits(struct job *job)
{
    return portable_digest_bits(job->code, job->message, job->len, job->odd, job->out, sizeof job->out);
}

static uint32_t fed_bits(struct job *job) { return feed_halves(job) | archive_finish(job); }
static uint32_t lent_bits(struct job *job) { return hash_feed_halves(job) | archive_hash_finish(job); }

/* Every length to 100 has the odd byte at every place of a block; the message's bits after the odd ones are any. */
int check_bits(const uint8_t *message)
{
    static const struct {
        const char *name;
        work *run;
    } WAYS[] = {{"one-call digest of bits", archive_digest_bits}, {"bits fed to a record", fed_bits}, {"bits fed to a struct", lent_bits}};
    size_t compared = 0;

    for (size_t i = 0; i < COUNT(WAYS); i++)
        for (size_t code = 1; code <= CODES; code++)
            for (size_t len = 1; len <= 100; len++)
                for (size_t odd = 0; odd < 8; odd++, compared++) {
                    struct job job = job_of(code, message, len);
                    job.odd = odd;
                    if (!same(WAYS[i].name, WAYS[i].run, portable_c_digest_bits, &job))
                        return 0;
                }
    printf("the same digests: %zu, of 1 to 800 bits, at codes 1 to %d, in one call and fed\n", compared, CODES);
    return 1;
}

/* The one-call digest of a message with odd bits, against that of the same bytes whole: at these lengths the rounds are as many. */
void bits(const uint8_t *message)
{
    static const struct length LENGTHS[] = {{63, 16, 4000}, {4095, 1, 4000}};
    static work *const RUNS[] = {archive_digest, archive_digest_bits};

    printf("\nDigest of a message with 3 odd bits, cycles per byte, best timing of each, taken in turns\n\n");
    printf("code    bytes     whole   odd bits   ratio\n");
    for (size_t code = 1; code <= CODES; code++)
        for (size_t i = 0; i < COUNT(LENGTHS); i++) {
            struct job job = job_of(code, message, LENGTHS[i].len);
            double best[COUNT(RUNS)];
            job.odd = 3;
            race(RUNS, COUNT(RUNS), &job, &LENGTHS[i], best);
            printf("%4zu %8zu %9.2f %10.2f %7.3f\n", code, job.len, best[0], best[1], best[1] / best[0]);
            fflush(stdout);
        }
}
