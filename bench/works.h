/* What works.c offers of an archive to the drivers, compare.c and instructions.c. Nothing of luffa.h is here: each side can be built with a
   header of its own, and only the side knows how large its records are. */
#ifndef WORKS_H
#define WORKS_H

#include <stddef.h>
#include <stdint.h>

#define COUNT(array) (sizeof(array) / sizeof(array)[0])

enum { CODES = 4, MOST_DIGEST_BYTES = 64, LONGEST = 1 << 20, FILL = 0xa5, DONE = 0 };

/* The room of an output: a digest's, the 256 bytes of the longest, and some after them that must stay. */
enum { OUT_BYTES = 320 };

/* The room that a side makes its job in: both get the same, so that neither has the better place. */
enum { ROOM_BYTES = 1 << 17 };

/* A measured thing: it does the whole job once and gives the call's answer. */
struct job;
typedef uint32_t work(struct job *job);

/* A work with its name; the bytes of the message, or the pieces that are fed and the bytes of each, or the records of the sheet; and the runs
   in one timing. Where a run leaves no digest, the end that gives it. */
struct measured {
    const char *name;
    work *run;
    size_t len, piece, records;
    unsigned runs;
    work *end;
};

/* The works in order, the last without a name; the job of one at a code, made in the room; a run of it with its end: the answer, and the whole
   output buffer. */
typedef const struct measured *measured_works(void);
typedef struct job *measured_job(const struct measured *m, size_t code, const uint8_t *message, void *room);
typedef uint32_t measured_outcome(const struct measured *m, struct job *job, uint8_t out[OUT_BYTES]);
measured_works works;
measured_job prepared;
measured_outcome outcome;

/* Any bytes will do for the clock. For a comparison no two blocks should be alike, and each run should have the same. */
static inline void fill(uint8_t *message, size_t len)
{
    uint32_t x = 1;
    for (size_t i = 0; i < len; i++) {
        x = x * 1664525 + 1013904223;
        message[i] = (uint8_t)(x >> 24);
    }
}

#endif
