/* Two planners have opened the same sheet. One saves a change; the other, whose digest is now
   outdated, is turned away, opens again and saves. To build it:
   gcc -Iinclude examples/sheet/sheet.c target/staticlib/libluffa.a -o sheet
*/
#include <luffa.h>
#include <stdio.h>
#include <string.h>

/* What is kept of a sheet: its records, their number, and their marks. */
static uint8_t sheet[LUFFA_SHEET_RECORD_BYTES * LUFFA_SHEET_MOST];
static uint32_t marks[LUFFA_MARKS_FOR(LUFFA_SHEET_MOST)];
static const size_t marks_len = sizeof marks / sizeof *marks;
static size_t n;

static void show(const char *what, struct luffa_sheet_answer answer)
{
    printf("%-26s answer %2u, %u records, %u rounds\n", what, (unsigned)answer.number, (unsigned)answer.count,
           (unsigned)answer.rounds);
}

/* Opens the sheet: builds its marks and gives its digest. */
static void open_sheet(const char *who, uint8_t *digest)
{
    show(who, luffa_sheet_build(LUFFA_256, sheet, sizeof sheet, n, marks, marks_len, digest, LUFFA_256_BYTES));
}

/* Saves a record at a place, if the sheet is still the one with this digest, and then has the digest
   after it. The claim and the output are two buffers. */
static uint64_t save(const char *who, size_t place, const char *text, uint8_t *digest)
{
    uint8_t record[LUFFA_SHEET_RECORD_BYTES] = {0}, after[LUFFA_256_BYTES];

    snprintf((char *)record, sizeof record, "%s", text);
    struct luffa_sheet_answer answer =
        luffa_sheet_change(LUFFA_256, sheet, sizeof sheet, n, marks, marks_len, place, record, sizeof record, digest,
                           LUFFA_256_BYTES, after, sizeof after);
    show(who, answer);
    if (answer.number == LUFFA_DONE)
        memcpy(digest, after, sizeof after);
    return answer.number;
}

int main(void)
{
    uint8_t anna[LUFFA_256_BYTES], ben[LUFFA_256_BYTES];

    for (n = 0; n < 100; n++) {
        char *record = (char *)sheet + LUFFA_SHEET_RECORD_BYTES * n;
        snprintf(record, LUFFA_SHEET_RECORD_BYTES, "injector %u: 40 kg", (unsigned)n);
    }

    open_sheet("Anna opens", anna);
    open_sheet("Ben opens", ben);
    save("Anna saves injector 97", 97, "injector 97: 55 kg", anna);
    if (save("Ben saves injector 3", 3, "injector 3: 20 kg", ben) == LUFFA_STALE) {
        open_sheet("Ben opens again", ben);
        save("Ben saves injector 3", 3, "injector 3: 20 kg", ben);
    }
    return fflush(stdout) != 0;
}
