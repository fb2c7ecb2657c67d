/* Longer output: the same words as portable C, and what they cost beside the digest. */
#include "output.h"
#include "bench.h"
#include "portable.h"

#include <stdio.h>

static uint32_t portable_c_output(struct job *job)
{
    return portable_output_bits(job->code, job->words, job->message, job->len, job->odd, job->out, sizeof job->out);
}

static uint32_t fed_output(struct job *job) { return feed_halves(job) | archive_finish_output(job); }
static uint32_t lent_output(struct job *job) { return hash_feed_halves(job) | archive_hash_finish_output(job); }

/* Every number of words, of messages whole and with odd bits; luffa_output takes none of these. */
int check_outputs(const uint8_t *message)
{
    static const struct {
        const char *name;
        work *run;
        size_t most_odd;
    } WAYS[] = {
        {"one-call output", archive_output, 0},
        {"one-call output of bits", archive_output_bits, 7},
        {"output of a record", fed_output, 7},
        {"output of a struct", lent_output, 7},
    };
    static const size_t LENGTHS[] = {0, 1, 31, 32, 33, 100};
    size_t compared = 0;

    for (size_t i = 0; i < COUNT(WAYS); i++)
        for (size_t code = 1; code <= CODES; code++)
            for (size_t k = 0; k < COUNT(LENGTHS); k++)
                for (size_t odd = 0; odd <= (LENGTHS[k] > 0 ? WAYS[i].most_odd : 0); odd++) {
                    struct job job = job_of(code, message, LENGTHS[k]);
                    job.odd = odd;
                    for (job.words = 1; job.words <= LUFFA_WORDS_MOST; job.words++, compared++)
                        if (!same(WAYS[i].name, WAYS[i].run, portable_c_output, &job))
                            return 0;
                }
    printf("the same outputs: %zu, of 1 to %d words, at codes 1 to %d, in one call and fed\n", compared, LUFFA_WORDS_MOST, CODES);
    return 1;
}

/* -- The timing: of a message of no bytes, whatever the job's length is, so that nearly all of the work is the final stage's -- */

static uint32_t digest_of_none(struct job *job) { return luffa_digest(job->code, job->message, 0, job->out, sizeof job->out); }

static uint32_t output_of_none(struct job *job, size_t words)
{
    return (uint32_t)luffa_output(job->code, words, job->message, 0, job->out, sizeof job->out).number;
}

static uint32_t digest_words_of_none(struct job *job) { return output_of_none(job, DIGEST_BYTES[job->code] / 4); }
static uint32_t all_words_of_none(struct job *job) { return output_of_none(job, LUFFA_WORDS_MOST); }

/* All words, and those of the digest, against the digest. The job is one byte long, so the cycles per byte are those per call. By rounds it is
   one of the padding's block and those of the final stage; the bar is a tenth above that, and stands at the widest state. */
void outputs(const uint8_t *message)
{
    static const struct length LENGTH = {1, 20, 4000};
    static const double BAR = 1.10 * 9 / 3;
    enum { DIGEST, ITS_WORDS, ALL_WORDS };
    static work *const RUNS[] = {digest_of_none, digest_words_of_none, all_words_of_none};

    printf("\nLonger output of an empty message, cycles per call and their ratio to the digest, best timing of each, taken in turns\n\n");
    printf("code   digest   its words   ratio   64 words   ratio   by rounds\n");
    for (size_t code = 1; code <= CODES; code++) {
        struct job job = job_of(code, message, LENGTH.len);
        double best[COUNT(RUNS)], by_rounds = 9.0 / (double)(1 + (DIGEST_BYTES[code] + 31) / 32);
        race(RUNS, COUNT(RUNS), &job, &LENGTH, best);
        double ratio = best[ALL_WORDS] / best[DIGEST];
        printf("%4zu %8.0f %11.0f %7.3f %10.0f %7.3f %11.2f", code, best[DIGEST], best[ITS_WORDS], best[ITS_WORDS] / best[DIGEST],
               best[ALL_WORDS], ratio, by_rounds);
        if (code == LUFFA_512)
            printf("   at most %.2f: %s", BAR, verdict(ratio, BAR));
        printf("\n");
        fflush(stdout);
    }
}
