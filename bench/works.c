/* What is measured of two archives. Linked with one archive it is a shared object or a program of its own: each has calls of its own, though
   their names are the same, and was compiled with its own header. */
#include "work.h"

/* Start, the message in pieces of this size, finish, over the struct. */
static inline uint32_t lent_in_pieces(struct job *job, size_t size)
{
    uint32_t answer = archive_hash_start(job);

    for (size_t at = 0; answer == LUFFA_DONE && at < job->len; at += size) {
        size_t left = job->len - at;
        answer = luffa_hash_feed(&job->hash, job->message + at, left < size ? left : size);
    }
    return answer == LUFFA_DONE ? archive_hash_finish(job) : answer;
}

static uint32_t lent_64_kib_pieces(struct job *job) { return lent_in_pieces(job, PIECE); }
static uint32_t lent_single_bytes(struct job *job) { return lent_in_pieces(job, 1); }
static uint32_t lent_one_piece(struct job *job) { return lent_in_pieces(job, job->len); }

/* Each timing takes about a millisecond or a few. */
const struct measured *works(void)
{
    static const struct measured WORKS[] = {
        {"digest of 64 bytes", archive_digest, 64, 0, 0, 1500, NULL},
        {"digest of 4 KiB", archive_digest, 4096, 0, 0, 60, NULL},
        {"digest of 1 MiB", archive_digest, LONGEST, 0, 0, 1, NULL},
        {"record: start, feed 64 bytes, finish", archive_one_piece, 64, 0, 0, 1000, NULL},
        {"record: start, feed 4 KiB, finish", archive_one_piece, 4096, 0, 0, 60, NULL},
        {"record: 1 MiB in 64 KiB pieces", archive_64_kib_pieces, LONGEST, 0, 0, 1, NULL},
        {"record: 16 KiB in 1-byte pieces", archive_single_bytes, 1 << 14, 0, 0, 1, NULL},
        {"record: feed of 1 byte, no round", archive_short_pieces, 31, 1, 0, 500, archive_finish},
        {"record: feed of 5 bytes, no round", archive_short_pieces, 6, 5, 0, 2500, archive_finish},
        {"record: feed of 31 bytes, no round", archive_short_pieces, 1, 31, 0, 15000, archive_finish},
        {"struct: start, feed 64 bytes, finish", lent_one_piece, 64, 0, 0, 1000, NULL},
        {"struct: start, feed 4 KiB, finish", lent_one_piece, 4096, 0, 0, 60, NULL},
        {"struct: 1 MiB in 64 KiB pieces", lent_64_kib_pieces, LONGEST, 0, 0, 1, NULL},
        {"struct: 16 KiB in 1-byte pieces", lent_single_bytes, 1 << 14, 0, 0, 1, NULL},
        {"struct: feed of 1 byte, no round", archive_hash_short_pieces, 31, 1, 0, 500, archive_hash_finish},
        {"struct: feed of 5 bytes, no round", archive_hash_short_pieces, 6, 5, 0, 2500, archive_hash_finish},
        {"struct: feed of 31 bytes, no round", archive_hash_short_pieces, 1, 31, 0, 15000, archive_hash_finish},
        {"sheet: build of 1,024 records", archive_build, 0, 0, SHEET_MOST, 5, NULL},
        {"sheet: change at the last place", archive_change_last, 0, 0, SHEET_MOST, 400, NULL},
        {0},
    };
    return WORKS;
}

struct job *prepared(const struct measured *m, size_t code, const uint8_t *message, void *room)
{
    struct {
        struct job job;
        struct sheet sheet;
    } *own = room;
    _Static_assert(sizeof *own <= ROOM_BYTES, "the room is large enough");

    own->job = m->records > 0 ? sheet_job(&own->sheet, code, message, m->records) : job_of(code, message, m->len);
    own->job.piece = m->piece;
    return &own->job;
}

uint32_t outcome(const struct measured *m, struct job *job, uint8_t out[OUT_BYTES])
{
    uint32_t answer;

    memset(job->out, FILL, sizeof job->out);
    answer = m->run(job);
    if (answer == LUFFA_DONE && m->end != NULL)
        answer = m->end(job);
    memcpy(out, job->out, sizeof job->out);
    return answer;
}
