/* A plant manager's page over two sheets: what each injector is sent and has to spare, then the totals.
   One injector is overloaded, and the second sheet is faulted. To build it:
   gcc -Iinclude examples/brine/brine.c target/staticlib/libluffa.a -o brine
*/
#include "../wells.h"
#include <inttypes.h>
#include <stdio.h>

/* The sheets lie one after another, and each of their wells has its place in both lists. */
enum { SHEETS = 2, WELLS = 6 };
static const size_t counts[SHEETS] = {4, 2};
static uint8_t sheets[LUFFA_SHEET_RECORD_BYTES * WELLS];
static uint64_t intake[WELLS];
static int64_t spare[WELLS];

static uint8_t *well(size_t place) { return sheets + LUFFA_SHEET_RECORD_BYTES * place; }

static void put_sheets(void)
{
    put_well(well(0), 1, LUFFA_PRODUCER, 500);
    add_link(well(0), 14, 500);
    add_link(well(0), 15, 500);
    put_well(well(1), 2, LUFFA_PRODUCER, 400);
    add_link(well(1), 14, LUFFA_SHARES_TOTAL);
    put_well(well(2), 14, LUFFA_INJECTOR, 600);
    put_well(well(3), 15, LUFFA_INJECTOR, 300);

    /* On the second sheet the injector of the link is mistyped. */
    put_well(well(4), 14, LUFFA_INJECTOR, 600);
    put_well(well(5), 3, LUFFA_PRODUCER, 500);
    add_link(well(5), 41, LUFFA_SHARES_TOTAL);
}

/* The lines of the sheet whose n wells begin at `first`. An injector may have 0 in both lists too, so
   its record says what it is. */
static void show_sheet(unsigned sheet, size_t first, size_t n)
{
    struct luffa_content_answer check = luffa_plan_check(well(first), LUFFA_SHEET_RECORD_BYTES * n, n);

    if (check.rule != LUFFA_SOUND) {
        printf("%5u  faulted: rule %u is broken at place %u\n", sheet, (unsigned)check.rule, (unsigned)check.place);
        return;
    }
    for (size_t p = first; p < first + n; p++)
        if (well(p)[LUFFA_WELL_KIND] == LUFFA_INJECTOR)
            printf("%5u  %8u  %16" PRIu64 "  %15" PRId64 "%s\n", sheet, number_of(well(p)), intake[p], spare[p],
                   spare[p] < 0 ? "  overloaded" : "");
}

int main(void)
{
    put_sheets();
    struct luffa_brine_answer page =
        luffa_plan_brine(sheets, sizeof sheets, counts, SHEETS, intake, WELLS, spare, WELLS);

    if (page.number != LUFFA_DONE) {
        printf("refused, answer %u\n", (unsigned)page.number);
        return 1;
    }
    printf("sheet  injector  intake, kg a day  spare, kg a day\n");
    for (size_t k = 0, first = 0; k < SHEETS; first += counts[k++])
        show_sheet((unsigned)k + 1, first, counts[k]);
    printf("sheets sound         %12" PRIu64 "\n", page.sound);
    printf("sheets faulted       %12" PRIu64 "\n", page.faulted);
    printf("intake, kg a day     %12" PRIu64 "\n", page.intake);
    printf("injectors overloaded %12" PRIu64 "\n", page.overloaded);
    return fflush(stdout) != 0;
}
