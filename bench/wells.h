/* Sheets of wells, and the works of the calls on what they mean. */
#ifndef WELLS_H
#define WELLS_H

#include "work.h"

/* High byte first. */
static inline void put(uint8_t *at, size_t bytes, size_t number)
{
    for (; bytes > 0; number >>= 8)
        at[--bytes] = (uint8_t)number;
}

/* Different at every place, and spread over the numbers that a well may have: 40009 and 65535 have no common divisor. */
static inline size_t well_number(size_t place) { return 1 + 40009 * place % 65535; }

/* A sound sheet of n wells, n a multiple of 8, or 1: injectors at the even places, and at the odd ones producers that link four of them. */
static inline void fill_wells(uint8_t *sheet, size_t n)
{
    static const size_t SHARES[LUFFA_LINKS_MOST] = {400, 300, 200, 100};

    fill(sheet, SHEET_RECORD * n);
    for (size_t i = 0; i < n; i++) {
        uint8_t *well = sheet + SHEET_RECORD * i;
        memset(well, 0, LUFFA_WELL_NOTE);
        put(well + LUFFA_WELL_NUMBER, 2, well_number(i));
        put(well + LUFFA_WELL_RATE, 4, LUFFA_RATE_MOST - i);
        well[LUFFA_WELL_KIND] = LUFFA_INJECTOR;
        if (i % 2 == 0)
            continue;
        well[LUFFA_WELL_KIND] = LUFFA_PRODUCER;
        well[LUFFA_WELL_LINK_COUNT] = LUFFA_LINKS_MOST;
        for (size_t k = 0; k < LUFFA_LINKS_MOST; k++) {
            put(well + LUFFA_LINK_INJECTOR(k), 2, well_number((i - 1 + k * n / 4) % n));
            put(well + LUFFA_LINK_SHARE(k), 2, SHARES[k]);
        }
    }
}

/* Link k of every producer names the first injector, which reaches all wells in three hops then. Those that link it already stay as they are. */
static inline void link_first(uint8_t *sheet, size_t n, size_t k)
{
    for (size_t i = 1; i < n; i += 2)
        if ((i - 1) % (n / 4) != 0)
            put(sheet + SHEET_RECORD * i + LUFFA_LINK_INJECTOR(k), 2, well_number(0));
}

/* What a record's rate is in kilograms a day. */
static inline uint64_t kilograms(const uint8_t *well)
{
    uint64_t rate = 0;

    for (size_t i = 0; i < 4; i++)
        rate = rate << 8 | well[LUFFA_WELL_RATE + i];
    return 1000 * rate;
}

/* Sheets of n wells each, one after another, with their counts and the lists of a brine statement; the place from which wells are searched for in
   the first of them, and their marks. */
struct batch {
    size_t sheets, n, counts[LUFFA_BATCH_MOST], start;
    uint8_t wells[SHEET_RECORD * SHEET_MOST * LUFFA_BATCH_MOST];
    uint64_t intake[SHEET_MOST * LUFFA_BATCH_MOST];
    int64_t spare[SHEET_MOST * LUFFA_BATCH_MOST];
    uint8_t reached[SHEET_MOST];
};

/* The job of a call on such a batch, or of digesting its bytes. */
static inline struct job batch_job(struct batch *batch, size_t sheets, size_t n)
{
    struct job job = job_of(LUFFA_256, batch->wells, SHEET_RECORD * n * sheets);

    job.batch = batch;
    batch->sheets = sheets;
    batch->n = n;
    batch->start = 0;
    for (size_t s = 0; s < sheets; s++) {
        batch->counts[s] = n;
        fill_wells(batch->wells + SHEET_RECORD * n * s, n);
    }
    return job;
}

/* The calls: the check and the search are of the first sheet. */
static inline struct luffa_content_answer check_of(const struct batch *b) { return luffa_plan_check(b->wells, sizeof b->wells, b->n); }

static inline struct luffa_brine_answer page_of(struct batch *b)
{
    return luffa_plan_brine(b->wells, sizeof b->wells, b->counts, b->sheets, b->intake, COUNT(b->intake), b->spare, COUNT(b->spare));
}

static inline uint32_t reach_of(struct batch *b, size_t hops)
{
    return luffa_plan_reach(b->wells, sizeof b->wells, b->n, well_number(b->start), hops, b->reached, sizeof b->reached);
}

/* As works, whose answer is 0 where all is sound. */
static inline uint32_t archive_plan_check(struct job *job)
{
    struct luffa_content_answer answer = check_of(job->batch);
    return (uint32_t)(answer.number | answer.rule);
}

static inline uint32_t archive_plan_brine(struct job *job)
{
    struct luffa_brine_answer answer = page_of(job->batch);
    return (uint32_t)(answer.number | answer.faulted);
}

static inline uint32_t archive_plan_reach(struct job *job) { return reach_of(job->batch, LUFFA_HOPS_MOST); }

#endif
