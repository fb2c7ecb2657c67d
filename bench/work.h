/* What is measured of an archive: a job, the works that do it once by the archive's calls, and the clock. */
#ifndef WORK_H
#define WORK_H

#include "luffa.h"
#include "works.h"

#include <string.h>
#include <x86intrin.h>

enum { PIECE = 1 << 16, BLOCK = 32 };
enum { SHEET_RECORD = LUFFA_SHEET_RECORD_BYTES, SHEET_MOST = LUFFA_SHEET_MOST, MARKS_MOST = LUFFA_MARKS_FOR(SHEET_MOST) };

static const size_t DIGEST_BYTES[CODES + 1] = {0, LUFFA_224_BYTES, LUFFA_256_BYTES, LUFFA_384_BYTES, LUFFA_512_BYTES};

/* What a measured thing is given: a code, a message with its odd bits, room for the output, a record and a struct in its place, both once more
   as they were started, the bytes of a short piece, and the words of longer output; for a sheet call, the sheet whose records are the message;
   for a call on what sheets mean, the batch whose wells are. */
struct job {
    size_t code;
    const uint8_t *message;
    size_t len, odd, piece, words;
    uint8_t out[OUT_BYTES];
    uint8_t record[LUFFA_RECORD_BYTES], started_record[LUFFA_RECORD_BYTES];
    struct luffa_hash hash, started_hash;
    struct sheet *sheet;
    struct batch *batch;
};

/* n records and their marks, these once more as a planner's own, the last mark again, and the digests of all records and of all but the last. */
struct sheet {
    size_t n;
    uint8_t records[SHEET_RECORD * SHEET_MOST];
    uint32_t marks[MARKS_MOST], own[MARKS_MOST], last_mark[LUFFA_MARK_WORDS];
    uint8_t digest[MOST_DIGEST_BYTES], without_last[MOST_DIGEST_BYTES];
};

/* A job with its room filled, its record and its struct started. */
static inline struct job job_of(size_t code, const uint8_t *message, size_t len)
{
    struct job job = {.code = code, .message = message, .len = len};
    memset(job.out, FILL, sizeof job.out);
    luffa_start(code, job.record, sizeof job.record);
    luffa_hash_start(code, &job.hash);
    memcpy(job.started_record, job.record, sizeof job.record);
    job.started_hash = job.hash;
    return job;
}

/* -- The works: each has a function of its own -- */

static inline uint32_t archive_digest(struct job *job)
{
    return luffa_digest(job->code, job->message, job->len, job->out, sizeof job->out);
}

static inline uint32_t archive_start(struct job *job) { return luffa_start(job->code, job->record, sizeof job->record); }

/* The whole message into the record as it is. A message of whole blocks leaves no rest there, so that every feeding is the same work. */
static inline uint32_t archive_feed(struct job *job) { return luffa_feed(job->record, sizeof job->record, job->message, job->len); }

static inline uint32_t archive_finish(struct job *job) { return luffa_finish(job->record, sizeof job->record, job->out, sizeof job->out); }

/* The same over the struct. */
static inline uint32_t archive_hash_start(struct job *job) { return luffa_hash_start(job->code, &job->hash); }
static inline uint32_t archive_hash_feed(struct job *job) { return luffa_hash_feed(&job->hash, job->message, job->len); }
static inline uint32_t archive_hash_finish(struct job *job) { return luffa_hash_finish(&job->hash, job->out, sizeof job->out); }

/* Start, the message in pieces of this size, finish. */
static inline uint32_t in_pieces(struct job *job, size_t size)
{
    uint32_t answer = archive_start(job);

    for (size_t at = 0; answer == LUFFA_DONE && at < job->len; at += size) {
        size_t left = job->len - at;
        answer = luffa_feed(job->record, sizeof job->record, job->message + at, left < size ? left : size);
    }
    return answer == LUFFA_DONE ? archive_finish(job) : answer;
}

static inline uint32_t archive_one_piece(struct job *job) { return in_pieces(job, job->len); }
static inline uint32_t archive_64_kib_pieces(struct job *job) { return in_pieces(job, PIECE); }
static inline uint32_t archive_single_bytes(struct job *job) { return in_pieces(job, 1); }

/* The most pieces of a size that a started record takes without a round; of empty ones, as many as of single bytes. */
static inline size_t short_pieces_of(size_t size) { return size > 0 ? (BLOCK - 1) / size : BLOCK - 1; }

/* As many short pieces as the job is long, into a record that was just started. It is copied from the one in the job: a start would be more
   than some of the feeds. */
static inline uint32_t archive_short_pieces(struct job *job)
{
    uint32_t answer = LUFFA_DONE;

    memcpy(job->record, job->started_record, sizeof job->record);
    for (size_t i = 0; i < job->len; i++)
        answer |= luffa_feed(job->record, sizeof job->record, job->message + i * job->piece, job->piece);
    return answer;
}

/* The same over the struct. */
static inline uint32_t archive_hash_short_pieces(struct job *job)
{
    uint32_t answer = LUFFA_DONE;

    job->hash = job->started_hash;
    for (size_t i = 0; i < job->len; i++)
        answer |= luffa_hash_feed(&job->hash, job->message + i * job->piece, job->piece);
    return answer;
}

/* -- Sheet calls. Each leaves the sheet as it was, so that all can take turns on one and each is the same work again. -- */

static inline uint32_t archive_build(struct job *job)
{
    struct sheet *s = job->sheet;
    return (uint32_t)luffa_sheet_build(job->code, s->records, sizeof s->records, s->n, s->marks, MARKS_MOST, job->out, sizeof job->out).number;
}

/* A record equal to the old one is saved like any other. */
static inline uint32_t change_at(struct job *job, size_t place)
{
    struct sheet *s = job->sheet;
    return (uint32_t)luffa_sheet_change(job->code, s->records, sizeof s->records, s->n, s->marks, MARKS_MOST, place,
                                        job->message + SHEET_RECORD * place, SHEET_RECORD, s->digest, DIGEST_BYTES[job->code], job->out,
                                        sizeof job->out)
        .number;
}

static inline uint32_t archive_change_last(struct job *job) { return change_at(job, job->sheet->n - 1); }
static inline uint32_t archive_change_middle(struct job *job) { return change_at(job, job->sheet->n / 2); }
static inline uint32_t archive_change_first(struct job *job) { return change_at(job, 0); }

/* The last record onto those before it. */
static inline uint32_t archive_append(struct job *job)
{
    struct sheet *s = job->sheet;
    size_t last = s->n - 1;
    return (uint32_t)luffa_sheet_append(job->code, s->records, sizeof s->records, last, s->marks, MARKS_MOST,
                                        job->message + SHEET_RECORD * last, SHEET_RECORD, s->without_last, DIGEST_BYTES[job->code], job->out,
                                        sizeof job->out)
        .number;
}

/* What a drop takes away is put back: the last record, and the last mark, which it may zero. */
static inline void put_back(struct job *job)
{
    struct sheet *s = job->sheet;
    size_t last = s->n - 1;
    memcpy(s->marks + LUFFA_MARK_WORDS * (s->n / 4), s->last_mark, sizeof s->last_mark);
    memcpy(s->records + SHEET_RECORD * last, job->message + SHEET_RECORD * last, SHEET_RECORD);
}

/* The last record dropped and put back. These 200 bytes are in the figure. */
static inline uint32_t archive_drop(struct job *job)
{
    struct sheet *s = job->sheet;
    uint32_t answer = (uint32_t)luffa_sheet_drop(job->code, s->records, sizeof s->records, s->n, s->marks, MARKS_MOST, s->digest,
                                                 DIGEST_BYTES[job->code], job->out, sizeof job->out)
                          .number;
    put_back(job);
    return answer;
}

/* A job on a sheet of n records, with true marks. */
static inline struct job sheet_job(struct sheet *sheet, size_t code, const uint8_t *message, size_t n)
{
    struct job job = job_of(code, message, SHEET_RECORD * n);

    job.sheet = sheet;
    sheet->n = n;
    memcpy(sheet->records, message, SHEET_RECORD * n);
    archive_digest(&job);
    memcpy(sheet->digest, job.out, sizeof sheet->digest);
    if (n > 0) {
        job.len -= SHEET_RECORD;
        archive_digest(&job);
        job.len += SHEET_RECORD;
    }
    memcpy(sheet->without_last, job.out, sizeof sheet->without_last);
    archive_build(&job);
    memcpy(sheet->own, sheet->marks, sizeof sheet->own);
    memcpy(sheet->last_mark, sheet->marks + LUFFA_MARK_WORDS * (n / 4), sizeof sheet->last_mark);
    memset(job.out, FILL, sizeof job.out);
    return job;
}

/* -- The clock -- */

/* The fences keep work from slipping over a reading of the clock. */
static inline uint64_t timing(work *run, struct job *job, unsigned calls)
{
    _mm_lfence();
    uint64_t start = __rdtsc();
    _mm_lfence();
    for (unsigned i = 0; i < calls; i++)
        run(job);
    _mm_lfence();
    return __rdtsc() - start;
}

#endif
