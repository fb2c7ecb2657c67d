/* The parts of the benchmark, and how they take a timing and judge it. */
#ifndef BENCH_H
#define BENCH_H

#include "work.h"

#include <float.h>

/* A length, the calls in one timing (a short job alone would be lost in the cost of reading the clock), and the timings. */
struct length {
    size_t len;
    unsigned calls, timings;
};

/* One more timing, in cycles per byte of the job; the best so far is kept. */
static inline void better(work *run, struct job *job, unsigned calls, double *best)
{
    double cycles = (double)timing(run, job, calls) / calls / (double)job->len;
    *best = cycles < *best ? cycles : *best;
}

/* All take turns, so that all meet the same clock speed and the same neighbours. The best timing of each, in cycles per byte. */
static inline void race(work *const *runs, size_t count, struct job *job, const struct length *length, double *best)
{
    for (size_t k = 0; k < count; k++)
        best[k] = DBL_MAX;
    for (unsigned i = 0; i < length->timings; i++)
        for (size_t k = 0; k < count; k++)
            better(runs[k], job, length->calls, &best[k]);
}

static inline const char *verdict(double value, double bar) { return value <= bar ? "ok" : "MISSED"; }

/* A call on a full sheet, and the most that it may take beside the first of its table, in words too: at one code, or at each where that is 0. */
struct raced {
    const char *name;
    work *run;
    const char *most;
    double bar;
    size_t code;
};

enum { RACED_MOST = 8 };

void race_sheets(const uint8_t *message, const struct raced *calls, size_t count, unsigned timings);

/* Whether both give the same, each on a copy of the job; else it is printed, the first as the archive's. */
int same(const char *way, work *a, work *b, const struct job *job);

/* Whether a sheet of n records is right at a code; what was compared is counted. */
typedef int sheet_check(size_t code, const uint8_t *message, size_t n, size_t *compared);

/* Whether all are: of so many records to 20, and some to the most, at each code. Then it is printed with how often. */
int each_sheet(const char *what, sheet_check *right, size_t least, const uint8_t *message);

/* -- Stepping back over a block (back.c) -- */

int check_backs(const uint8_t *message);
void backs(const uint8_t *message);

/* -- States by columns (columns.c) -- */

int check_columns(const uint8_t *message);
void columns(const uint8_t *message);

/* -- Messages that stop inside a byte (bits.c) -- */

int check_bits(const uint8_t *message);
void bits(const uint8_t *message);

/* -- Longer output (output.c) -- */

int check_outputs(const uint8_t *message);
void outputs(const uint8_t *message);

/* -- Mending marks (mend.c) -- */

int check_mends(const uint8_t *message);
void mends(const uint8_t *message);

/* -- Many changes in one save (batch.c) -- */

void changes(const uint8_t *message);

/* -- Closing up struck records (close.c) -- */

int check_close_ups(const uint8_t *message);
void close_ups(const uint8_t *message);

/* -- Saves with own marks (own.c) -- */

int check_owns(const uint8_t *message);
void owns(const uint8_t *message);

/* -- What sheets mean (plans.c) -- */

enum { PLANS_COUNT = 3, SIZES_MOST = 4 };

/* A call on batches of so many sheets of so many wells each, with the calls in one timing, beside another thing that is done with the same, in
   words too; the bar stands at the last. */
extern const struct plan {
    const char *name, *call;
    work *run;
    const char *other;
    work *beside;
    double bar;
    unsigned timings;
    size_t count;
    struct size {
        size_t sheets, n;
        unsigned calls;
    } sizes[SIZES_MOST];
} PLANS[PLANS_COUNT];

int check_plans(void);
void plans(void);

/* -- Who depends on a well (reach.c) -- */

int reach_is_right(size_t sound, struct batch *b);
int check_starts(void);
void starts(void);

/* -- The stack (stack.c) -- */

int stacks(const uint8_t *message);

#endif
