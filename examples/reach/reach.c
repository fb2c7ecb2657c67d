/* Before a planner closes an injector, he asks who depends on it: the producers that send to it, the injectors that
   these may send to instead, and the producers that share those. To build it:
   gcc -Iinclude examples/reach/reach.c target/staticlib/libluffa.a -o reach
*/
#include "../wells.h"
#include <stdio.h>
#include <string.h>

/* A producer sends in equal parts to each injector that it links; one that links none stands still. */
static const struct {
    uint32_t number;
    uint8_t kind;
    size_t links;
    uint32_t injectors[LUFFA_LINKS_MOST];
} PLANT[] = {
    {1, LUFFA_PRODUCER, 2, {14, 15}},
    {2, LUFFA_PRODUCER, 1, {14}},
    {14, LUFFA_INJECTOR, 0, {0}},
    {15, LUFFA_INJECTOR, 0, {0}},
    {3, LUFFA_PRODUCER, 2, {15, 16}},
    {16, LUFFA_INJECTOR, 0, {0}},
    {4, LUFFA_PRODUCER, 1, {17}},
    {17, LUFFA_INJECTOR, 0, {0}},
    {5, LUFFA_PRODUCER, 0, {0}},
};

enum { WELLS = sizeof PLANT / sizeof PLANT[0] };
static uint8_t sheet[LUFFA_SHEET_RECORD_BYTES * WELLS];

static uint8_t *well(size_t place) { return sheet + LUFFA_SHEET_RECORD_BYTES * place; }

static void put_sheet(void)
{
    for (size_t p = 0; p < WELLS; p++) {
        put_well(well(p), PLANT[p].number, PLANT[p].kind, 100 * (uint32_t)PLANT[p].links);
        for (size_t k = 0; k < PLANT[p].links; k++)
            add_link(well(p), PLANT[p].injectors[k], LUFFA_SHARES_TOTAL / (uint32_t)PLANT[p].links);
    }
}

/* The wells that are marked now and weren't before, on one line. */
static void show(const char *when, const uint8_t *now, const uint8_t *before)
{
    printf("%-8s", when);
    for (size_t p = 0; p < WELLS; p++)
        if (now[p] && !before[p])
            printf("  %s %u", well(p)[LUFFA_WELL_KIND] == LUFFA_PRODUCER ? "producer" : "injector", number_of(well(p)));
    printf("\n");
}

/* Who is joined to a well by so many links, and by no fewer; then everybody else. */
static int ask(size_t number)
{
    static const char *const HOPS[] = {"the well", "1 hop", "2 hops", "3 hops"};
    uint8_t reached[WELLS], before[WELLS] = {0}, all[WELLS];

    for (size_t hops = 0; hops <= LUFFA_HOPS_MOST; hops++) {
        uint32_t answer = luffa_plan_reach(sheet, sizeof sheet, WELLS, number, hops, reached, sizeof reached);
        if (answer != LUFFA_DONE) {
            printf("well %u   answer %u\n", (unsigned)number, (unsigned)answer);
            return 0;
        }
        show(HOPS[hops], reached, before);
        memcpy(before, reached, sizeof before);
    }
    memset(all, 1, sizeof all);
    show("others", all, reached);
    return 1;
}

int main(void)
{
    put_sheet();
    if (!ask(14))
        return 1;
    ask(41);
    return fflush(stdout) != 0;
}
