/* A planner has mistyped the injector of a link. The check says at which place, and which rule is
   broken; mended, the sheet is sound. To build it:
   gcc -Iinclude examples/check/check.c target/staticlib/libluffa.a -o check
*/
#include "../wells.h"
#include <stdio.h>

static uint8_t sheet[2 * LUFFA_SHEET_RECORD_BYTES];

static void show(const char *when)
{
    static const char *const RULES[] = {"sound", "number", "kind",         "link count", "rate",
                                        "links", "shares", "unused links", "repeat"};
    struct luffa_content_answer answer = luffa_plan_check(sheet, sizeof sheet, 2);

    printf("%-9s ", when);
    if (answer.number != LUFFA_DONE)
        printf("refused, answer %u\n", (unsigned)answer.number);
    else if (answer.rule == LUFFA_SOUND)
        printf("sound\n");
    else
        printf("rule %u, %s, is broken at place %u\n", (unsigned)answer.rule, RULES[answer.rule],
               (unsigned)answer.place);
}

int main(void)
{
    uint8_t *producer = sheet + LUFFA_SHEET_RECORD_BYTES;

    put_well(sheet, 14, LUFFA_INJECTOR, 600);
    put_well(producer, 3, LUFFA_PRODUCER, 500);
    add_link(producer, 41, LUFFA_SHARES_TOTAL);
    show("as typed");
    put(producer + LUFFA_LINK_INJECTOR(0), 2, 14);
    show("mended");
    return fflush(stdout) != 0;
}
