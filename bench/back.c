/* Stepping back over a block: the digests of messages whose blocks were sent again, and what it costs beside a feed of the block. */
#include "back.h"
#include "bench.h"
#include "portable.h"

#include <stdio.h>
#include <stdlib.h>

static uint32_t portable_c_digest(struct job *job)
{
    return portable_digest(job->code, job->message, job->len, job->out, sizeof job->out);
}

static uint32_t feed(struct job *job, const uint8_t *bytes, size_t n) { return luffa_feed(job->record, sizeof job->record, bytes, n); }
static uint32_t back(struct job *job, const uint8_t *block) { return luffa_back(job->record, sizeof job->record, block, BLOCK); }

/* Every block comes garbled first, is taken back, and comes as it is. */
static uint32_t each_sent_again(struct job *job)
{
    const uint8_t *m = job->message, *end = m + job->len;
    uint32_t answer = LUFFA_DONE;

    for (; m + BLOCK <= end; m += BLOCK) {
        uint8_t garbled[BLOCK];
        memcpy(garbled, m, BLOCK);
        garbled[(size_t)(m - job->message) / BLOCK % BLOCK] ^= FILL;
        answer |= feed(job, garbled, BLOCK) | back(job, garbled) | feed(job, m, BLOCK);
    }
    return answer | feed(job, m, (size_t)(end - m)) | archive_finish(job);
}

/* All blocks are taken back, the last first, down to the started record, and come again. The answer is 1000 if another record is left. */
static uint32_t all_sent_again(struct job *job)
{
    size_t blocks = job->len / BLOCK * BLOCK;
    uint32_t answer = feed(job, job->message, blocks);

    for (size_t at = blocks; at > 0; at -= BLOCK)
        answer |= back(job, job->message + at - BLOCK);
    if (memcmp(job->record, job->started_record, sizeof job->record) != 0)
        return 1000;
    return answer | archive_feed(job) | archive_finish(job);
}

int check_backs(const uint8_t *message)
{
    static const struct {
        const char *name;
        work *run;
    } WAYS[] = {{"each block sent again", each_sent_again}, {"all blocks sent again", all_sent_again}};
    size_t compared = 0;

    for (size_t i = 0; i < COUNT(WAYS); i++)
        for (size_t code = 1; code <= CODES; code++)
            for (size_t len = 0; len <= 4096; len += len < 200 ? 1 : 487, compared++) {
                struct job job = job_of(code, message, len);
                if (!same(WAYS[i].name, WAYS[i].run, portable_c_digest, &job))
                    return 0;
            }
    printf("the same digests of blocks that were taken back and sent again: %zu, of 0 to 4096 bytes, at codes 1 to %d\n", compared, CODES);
    return 1;
}

/* As many blocks are taken back as were fed, in turns, so that the record is the started one again each time and none is refused. A round is
   undone by as many steps as it has; the bar is what the inverses of S and of the injection may cost. */
void backs(const uint8_t *message)
{
    static const struct length LENGTH = {BLOCK, 100, 2000};
    static const double BAR = 3;
    enum { FEED, BACK };
    static work *const RUNS[] = {archive_feed, archive_back};

    printf("\nStep back over a block, cycles per call and their ratio to a feed of the same 32 bytes, best timing of each, taken in turns\n\n");
    printf("code     feed     back   ratio\n");
    for (size_t code = 1; code <= CODES; code++) {
        struct job job = job_of(code, message, LENGTH.len);
        double best[COUNT(RUNS)];
        race(RUNS, COUNT(RUNS), &job, &LENGTH, best);
        if (memcmp(job.record, job.started_record, sizeof job.record) != 0) {
            printf("REFUSED: code %zu, another record is left than the started one\n", code);
            exit(1);
        }
        double ratio = best[BACK] / best[FEED];
        printf("%4zu %8.0f %8.0f %7.3f   at most %.2f: %s\n", code, BLOCK * best[FEED], BLOCK * best[BACK], ratio, BAR, verdict(ratio, BAR));
        fflush(stdout);
    }
}
