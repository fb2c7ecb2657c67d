/* Who depends on a well: the marks of a plain search, and what the call costs from whichever well it starts, beside the check of the same sheet. */
#include "bench.h"
#include "wells.h"

#include <stdio.h>

/* One hop more: the ends of each link of which one was marked. */
static void hop(const struct batch *b, uint8_t *marks)
{
    static uint8_t before[SHEET_MOST];
    static size_t place_of[1 << 16];

    memcpy(before, marks, sizeof before);
    for (size_t i = 0; i < b->n; i++)
        place_of[well_number(i)] = i;
    for (size_t i = 0; i < b->n; i++) {
        const uint8_t *well = b->wells + SHEET_RECORD * i;
        for (size_t k = 0; k < well[LUFFA_WELL_LINK_COUNT]; k++) {
            const uint8_t *number = well + LUFFA_LINK_INJECTOR(k);
            size_t j = place_of[256 * number[0] + number[1]];
            if (before[i] || before[j])
                marks[i] = marks[j] = 1;
        }
    }
}

/* The first and the last injector and producer, and one of each between. */
enum { PLACES = 6 };
static size_t place(const struct batch *b, size_t k)
{
    const size_t places[PLACES] = {0, 1, b->n / 2, b->n / 2 + 1, b->n - 2, b->n - 1};
    return b->n > 1 ? places[k] : 0;
}

/* From each of these places, at each number of hops; what lies behind the marks stays, and of an unsound sheet all. */
int reach_is_right(size_t sound, struct batch *b)
{
    uint32_t want = sound < b->sheets ? LUFFA_UNSOUND : LUFFA_DONE;

    for (size_t k = 0; k < PLACES; k++) {
        uint8_t marks[SHEET_MOST] = {0}, expected[SHEET_MOST];
        b->start = place(b, k);
        marks[b->start] = 1;
        for (size_t hops = 0; hops <= LUFFA_HOPS_MOST; hops++, hop(b, marks)) {
            memset(expected, FILL, sizeof expected);
            memcpy(expected, marks, want == LUFFA_DONE ? b->n : 0);
            memset(b->reached, FILL, sizeof b->reached);
            uint32_t answer = reach_of(b, hops);
            if (answer == want && memcmp(b->reached, expected, sizeof expected) == 0)
                continue;
            printf("WRONG: the search from place %zu of %zu wells in %zu hops answers %u, or has other marks; expected is %u\n", b->start, b->n,
                   hops, (unsigned)answer, (unsigned)want);
            return 0;
        }
    }
    return 1;
}

/* 1,024 wells as they are, of which any reaches eight; or with a link of every producer to the first injector, so that most reach all: it is found
   at once where that is the first link, and last where it is the fourth. */
static const char *const LINKED[] = {"as filled", "by link 0", "by link 3"};

static struct job linked_job(struct batch *batch, size_t i)
{
    struct job job = batch_job(batch, 1, SHEET_MOST);
    if (i > 0)
        link_first(batch->wells, batch->n, i == 1 ? 0 : LUFFA_LINKS_MOST - 1);
    return job;
}

int check_starts(void)
{
    static struct batch batch;

    for (size_t i = 0; i < COUNT(LINKED); i++) {
        linked_job(&batch, i);
        if (!reach_is_right(1, &batch))
            return 0;
    }
    printf("luffa_plan_reach: right from %d wells each, with an injector that all producers link too\n", PLACES);
    return 1;
}

void starts(void)
{
    static const struct length LENGTH = {SHEET_RECORD * SHEET_MOST, 1, 400};
    static work *const RUNS[] = {archive_plan_check, archive_plan_reach};
    static const double BAR = 3;
    static struct batch batch;
    double most = 0;

    printf("\nWho depends on a well, three hops, from other wells of 1,024 and with an injector that all producers link, cycles per call, beside the"
           " check of the same sheet, best timing of each, taken in turns\n\n");
    printf("linked        from      call    beside     ratio\n");
    for (size_t i = 0; i < COUNT(LINKED); i++) {
        struct job job = linked_job(&batch, i);
        for (size_t k = 0; k < PLACES; k++) {
            double best[COUNT(RUNS)], bytes = (double)job.len;
            batch.start = place(&batch, k);
            race(RUNS, COUNT(RUNS), &job, &LENGTH, best);
            double ratio = best[1] / best[0];
            printf("%-10s %7zu %9.0f %9.0f %9.3f\n", LINKED[i], batch.start, best[1] * bytes, best[0] * bytes, ratio);
            most = ratio > most ? ratio : most;
        }
    }
    printf("the most: %.3f   at most %.2f: %s\n", most, BAR, verdict(most, BAR));
    fflush(stdout);
}
