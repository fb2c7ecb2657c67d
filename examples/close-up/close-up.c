/* A planner strikes the wells that were given up, by changes to 40 zero bytes, and closes the sheet up. The list of old
   places says which well stands where now, and a new well is appended into the room that was freed. To build it:
   gcc -Iinclude examples/close-up/close-up.c target/staticlib/libluffa.a -o close-up
*/
#include "../wells.h"
#include <stdio.h>
#include <string.h>

enum { N = 6, RECORD = LUFFA_SHEET_RECORD_BYTES, MARKS_LEN = LUFFA_MARKS_FOR(N) };

/* The sheet with its count, its marks, and the digest that is the claim of the next save. There is no room for a
   seventh well. */
static size_t n = N;
static uint8_t sheet[RECORD * N], digest[LUFFA_256_BYTES];
static uint32_t marks[MARKS_LEN];

static uint8_t *well(size_t place) { return sheet + RECORD * place; }

static const char *kind(const uint8_t *w) { return w[LUFFA_WELL_KIND] == LUFFA_PRODUCER ? "producer" : "injector"; }

static void show(const char *what, struct luffa_sheet_answer answer)
{
    printf("%-18s answer %2u, %u wells, %2u rounds\n", what, (unsigned)answer.number, (unsigned)answer.count,
           (unsigned)answer.rounds);
}

/* Whether a save was done: then the sheet has the new count and digest. */
static int saved(const char *what, struct luffa_sheet_answer answer, const uint8_t *after)
{
    show(what, answer);
    if (answer.number != LUFFA_DONE)
        return 0;
    n = (size_t)answer.count;
    memcpy(digest, after, sizeof digest);
    return 1;
}

/* Producer 2 has run dry, and injector 15 took its brine alone. */
static void put_sheet(void)
{
    put_well(well(0), 1, LUFFA_PRODUCER, 500);
    add_link(well(0), 14, LUFFA_SHARES_TOTAL);
    put_well(well(1), 2, LUFFA_PRODUCER, 30);
    add_link(well(1), 15, LUFFA_SHARES_TOTAL);
    put_well(well(2), 14, LUFFA_INJECTOR, 600);
    put_well(well(3), 15, LUFFA_INJECTOR, 100);
    put_well(well(4), 3, LUFFA_PRODUCER, 80);
    add_link(well(4), 16, LUFFA_SHARES_TOTAL);
    put_well(well(5), 16, LUFFA_INJECTOR, 90);
}

static void strike(size_t place)
{
    static const uint8_t struck[RECORD];
    uint8_t after[LUFFA_256_BYTES];
    char what[32];

    snprintf(what, sizeof what, "strike %s %u", kind(well(place)), number_of(well(place)));
    saved(what,
          luffa_sheet_change(LUFFA_256, sheet, sizeof sheet, n, marks, MARKS_LEN, place, struck, sizeof struck, digest,
                             sizeof digest, after, sizeof after),
          after);
}

static void close_up(void)
{
    uint8_t after[LUFFA_256_BYTES];
    uint16_t places[N];

    if (!saved("close up",
               luffa_sheet_close_up(LUFFA_256, sheet, sizeof sheet, n, marks, MARKS_LEN, digest, sizeof digest, places,
                                    N, after, sizeof after),
               after))
        return;
    for (size_t k = 0; k < n; k++)
        printf("  %s %-2u at %u, was at %u\n", kind(well(k)), number_of(well(k)), (unsigned)k, places[k]);
}

static void append(uint32_t number)
{
    uint8_t record[RECORD] = {0}, after[LUFFA_256_BYTES];
    char what[32];

    put_well(record, number, LUFFA_INJECTOR, 200);
    snprintf(what, sizeof what, "append %s %u", kind(record), number_of(record));
    saved(what,
          luffa_sheet_append(LUFFA_256, sheet, sizeof sheet, n, marks, MARKS_LEN, record, sizeof record, digest,
                             sizeof digest, after, sizeof after),
          after);
}

static void check(void)
{
    struct luffa_content_answer answer = luffa_plan_check(sheet, sizeof sheet, n);

    if (answer.rule == LUFFA_SOUND)
        printf("check              sound\n");
    else
        printf("check              rule %u is broken at place %u\n", (unsigned)answer.rule, (unsigned)answer.place);
}

int main(void)
{
    put_sheet();
    show("open", luffa_sheet_build(LUFFA_256, sheet, sizeof sheet, n, marks, MARKS_LEN, digest, sizeof digest));
    append(17);
    strike(1);
    strike(3);
    check();
    close_up();
    append(17);
    check();
    return fflush(stdout) != 0;
}
