/* The functions of brine.h, but for the page. */
#include "brine.h"
#include "csv.h"
#include "say.h"
#include <inttypes.h>
#include <stdlib.h>
#include <string.h>

/* The overloaded first, the worst of them before the others; else as they stand. */
static int in_order(const void *one, const void *other)
{
    const struct brine_row *a = one, *b = other;
    int64_t left = a->spare < 0 ? a->spare : 0, right = b->spare < 0 ? b->spare : 0;

    if (left != right)
        return left < right ? -1 : 1;
    if (a->sheet != b->sheet)
        return a->sheet < b->sheet ? -1 : 1;
    return a->place < b->place ? -1 : a->place > b->place;
}

static void add_row(struct brine *brine, size_t s, size_t place, const uint8_t *record, uint64_t intake, int64_t spare)
{
    struct brine_row *row = &brine->rows[brine->rows_n];
    struct well well;

    well_read(&well, record);
    if (brine->sheets[s].fault[0] || well.kind != LUFFA_INJECTOR)
        return;
    row->sheet = s;
    row->place = place;
    row->number = well.number;
    row->intake = intake;
    row->spare = spare;
    row->capacity = UINT64_C(1000) * well.rate;
    memcpy(row->note, well.note, NOTE);
    row->note_len = well.note_len;
    brine->rows_n++;
}

uint64_t brine_state(struct brine *brine, const struct list *lists)
{
    static uint8_t records[LUFFA_BATCH_MOST * LUFFA_SHEET_MOST * RECORD];
    static uint64_t intake[LUFFA_BATCH_MOST * LUFFA_SHEET_MOST];
    static int64_t spare[LUFFA_BATCH_MOST * LUFFA_SHEET_MOST];
    size_t counts[LUFFA_BATCH_MOST], n = 0;

    for (size_t s = 0; s < brine->sheets_n; s++) {
        counts[s] = lists[s].n;
        memcpy(records + RECORD * n, lists[s].records, RECORD * lists[s].n);
        n += lists[s].n;
        brine->sheets[s].n = lists[s].n;
        fault_words(brine->sheets[s].fault, &lists[s]);
    }
    brine->total = luffa_plan_brine(records, sizeof records, counts, brine->sheets_n, intake, sizeof intake / 8, spare,
                                    sizeof spare / 8);
    if (brine->total.number != LUFFA_DONE)
        return brine->total.number;
    brine->rows_n = n = 0;
    for (size_t s = 0; s < brine->sheets_n; s++)
        for (size_t i = 0; i < lists[s].n; i++, n++)
            add_row(brine, s, i, record_at(&lists[s], i), intake[n], spare[n]);
    qsort(brine->rows, brine->rows_n, sizeof *brine->rows, in_order);
    return LUFFA_DONE;
}

void brine_print(const struct brine *brine)
{
    char note[TEXT_MOST(NOTE)];
    int wide = 5;

    for (size_t s = 0; s < brine->sheets_n; s++)
        if ((int)strlen(brine->sheets[s].name) > wide)
            wide = (int)strlen(brine->sheets[s].name);
    if (brine->rows_n > 0)
        printf("%-*s  injector   intake, kg/d  capacity, kg/d    spare, kg/d  state       note\n", wide, "sheet");
    for (size_t i = 0; i < brine->rows_n; i++) {
        const struct brine_row *row = &brine->rows[i];
        const char *name = brine->sheets[row->sheet].name;

        text_put(stdout, name);
        text_from_bytes(note, row->note, row->note_len);
        printf("%*s  %8u  %13" PRIu64 "  %14" PRIu64 "  %13" PRId64, wide - (int)strlen(name), "", row->number,
               row->intake, row->capacity, row->spare);
        if (row->note_len > 0)
            printf("  %-10s  %s\n", row->spare < 0 ? "overloaded" : "", note);
        else
            printf("%s\n", row->spare < 0 ? "  overloaded" : "");
    }
    for (size_t s = 0; s < brine->sheets_n; s++)
        if (brine->sheets[s].fault[0]) {
            text_put(stdout, brine->sheets[s].name);
            printf(": not sound: %s\n", brine->sheets[s].fault);
        }
    brine_summary(brine);
}

void brine_summary(const struct brine *brine)
{
    printf("%" PRIu64 " sheet%s sound, %" PRIu64 " faulted, total intake %" PRIu64 " kg a day, %" PRIu64
           " injector%s overloaded\n",
           brine->total.sound, many(brine->total.sound), brine->total.faulted, brine->total.intake,
           brine->total.overloaded, many(brine->total.overloaded));
}

/* A name or note as a cell. */
static void print_cell(const uint8_t *bytes, size_t n)
{
    char *text = malloc(TEXT_MOST(n)), *cell = malloc(2 * TEXT_MOST(n) + 8);

    if (text && cell) {
        text_from_bytes(text, bytes, n);
        csv_cell(cell, text);
        fputs(cell, stdout);
    }
    free(text);
    free(cell);
}

void brine_csv(const struct brine *brine)
{
    printf("sheet,injector,intake,capacity,spare,state,note\n");
    for (size_t i = 0; i < brine->rows_n; i++) {
        const struct brine_row *row = &brine->rows[i];
        const char *name = brine->sheets[row->sheet].name;

        print_cell((const uint8_t *)name, strlen(name));
        printf(",%u,%" PRIu64 ",%" PRIu64 ",%" PRId64 ",%s,", row->number, row->intake, row->capacity, row->spare,
               row->spare < 0 ? "overloaded" : "within");
        print_cell(row->note, row->note_len);
        putchar('\n');
    }
    for (size_t s = 0; s < brine->sheets_n; s++)
        if (brine->sheets[s].fault[0]) {
            print_cell((const uint8_t *)brine->sheets[s].name, strlen(brine->sheets[s].name));
            printf(",,,,,faulted,");
            print_cell((const uint8_t *)brine->sheets[s].fault, strlen(brine->sheets[s].fault));
            putchar('\n');
        }
}
