/* What sheets mean: the check of content, the brine statement and the search for who depends on a well, what they answer on the sheets that are
   measured, and their cycles. */
#include "bench.h"
#include "wells.h"

#include <stdio.h>

static const char DIGEST[] = "the digest of the same bytes at code 2", CHECK[] = "the check of the same sheet";

/* The last two of each have 128 and 1,024 wells a sheet, and a record of one is compared with the other's. */
const struct plan PLANS[PLANS_COUNT] = {
    {"Check of content", "luffa_plan_check", archive_plan_check, DIGEST, archive_digest, 0.5, 400, 4,
     {{1, 1, 200}, {1, 16, 100}, {1, 128, 20}, {1, SHEET_MOST, 4}}},
    {"Brine statement", "luffa_plan_brine", archive_plan_brine, DIGEST, archive_digest, 1.5, 100, 3,
     {{1, 1, 200}, {64, 128, 1}, {64, SHEET_MOST, 1}}},
    {"Who depends on a well, three hops", "luffa_plan_reach", archive_plan_reach, CHECK, archive_plan_check, 3, 400, 4,
     {{1, 1, 200}, {1, 16, 100}, {1, 128, 20}, {1, SHEET_MOST, 4}}},
};

/* -- What they answer: all sheets are sound, or all but the last, whose last well has a rate that is too high -- */

static int check_is_right(size_t sound, struct batch *b)
{
    uint64_t rule = sound < b->sheets ? LUFFA_RULE_RATE : LUFFA_SOUND, place = sound < b->sheets ? b->n - 1 : 0;
    struct luffa_content_answer answer = check_of(b);

    if (answer.number == LUFFA_DONE && answer.rule == rule && answer.place == place)
        return 1;
    printf("WRONG: the check of %zu wells answers %u, rule %u at place %u; expected is rule %u at place %u\n", b->n, (unsigned)answer.number,
           (unsigned)answer.rule, (unsigned)answer.place, (unsigned)rule, (unsigned)place);
    return 0;
}

/* The injectors of the sound sheets take what their producers give, each has the rest of its rate to spare, and all other places are 0. */
static int page_is_right(size_t sound, struct batch *b)
{
    struct luffa_brine_answer answer = page_of(b);
    uint64_t given = 0, taken = 0, overloaded = 0;
    int right = answer.number == LUFFA_DONE && answer.sound == sound && answer.faulted == b->sheets - sound;

    for (size_t p = 0; p < b->n * b->sheets; p++) {
        const uint8_t *well = b->wells + SHEET_RECORD * p;
        int injector = well[LUFFA_WELL_KIND] == LUFFA_INJECTOR && p < b->n * sound;
        if (!injector && p < b->n * sound)
            given += kilograms(well);
        right &= injector ? b->spare[p] + (int64_t)b->intake[p] == (int64_t)kilograms(well) : b->intake[p] == 0 && b->spare[p] == 0;
        taken += b->intake[p];
        overloaded += b->spare[p] < 0;
    }
    if (right && answer.intake == given && taken == given && answer.overloaded == overloaded)
        return 1;
    printf("WRONG: the statement over %zu sheets of %zu wells, %zu of them sound, answers %u\n", b->sheets, b->n, sound,
           (unsigned)answer.number);
    return 0;
}

int check_plans(void)
{
    static int (*const RIGHT[PLANS_COUNT])(size_t sound, struct batch *b) = {check_is_right, page_is_right, reach_is_right};
    static struct batch batch;

    for (size_t i = 0; i < PLANS_COUNT; i++) {
        for (size_t k = 0; k < PLANS[i].count; k++) {
            size_t sheets = PLANS[i].sizes[k].sheets, n = PLANS[i].sizes[k].n;
            batch_job(&batch, sheets, n);
            if (!RIGHT[i](sheets, &batch))
                return 0;
            put(batch.wells + SHEET_RECORD * (n * sheets - 1) + LUFFA_WELL_RATE, 4, LUFFA_RATE_MOST + 1);
            if (!RIGHT[i](sheets - 1, &batch))
                return 0;
        }
        printf("%s: right on sound wells, and with a fault at the last place\n", PLANS[i].call);
    }
    return 1;
}

/* -- The timing -- */

/* A call against another on the same. The batches take turns too, as the cycles a record of one are compared with another's. */
static void plan_table(const struct plan *plan)
{
    static const double BAR_RECORD = 1.5;
    static struct batch batches[SIZES_MOST];
    struct job jobs[SIZES_MOST];
    double call[SIZES_MOST], other[SIZES_MOST];
    size_t last = plan->count - 1;

    for (size_t k = 0; k <= last; k++) {
        jobs[k] = batch_job(&batches[k], plan->sizes[k].sheets, plan->sizes[k].n);
        call[k] = other[k] = DBL_MAX;
    }
    for (unsigned i = 0; i < plan->timings; i++)
        for (size_t k = 0; k <= last; k++) {
            better(plan->run, &jobs[k], plan->sizes[k].calls, &call[k]);
            better(plan->beside, &jobs[k], plan->sizes[k].calls, &other[k]);
        }

    printf("\n%s, cycles per call, beside %s, best timing of each, taken in turns\n\n", plan->name, plan->other);
    printf("sheets   records each      call   a record    beside     ratio\n");
    for (size_t k = 0; k <= last; k++) {
        double bytes = (double)jobs[k].len, ratio = call[k] / other[k];
        printf("%6zu %14zu %9.0f %10.1f %9.0f %9.3f", plan->sizes[k].sheets, plan->sizes[k].n, call[k] * bytes, call[k] * SHEET_RECORD,
               other[k] * bytes, ratio);
        if (k == last)
            printf("   at most %.2f: %s", plan->bar, verdict(ratio, plan->bar));
        printf("\n");
    }
    double growth = call[last] / call[last - 1];
    printf("a record of 1,024 to one of 128: %.3f   at most %.2f: %s\n", growth, BAR_RECORD, verdict(growth, BAR_RECORD));
    fflush(stdout);
}

void plans(void)
{
    for (size_t i = 0; i < PLANS_COUNT; i++)
        plan_table(&PLANS[i]);
}
