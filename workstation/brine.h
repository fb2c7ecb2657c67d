/* The brine statement over a batch of sheets, as the plant manager reads it: as a table, as CSV, or as a page. */
#ifndef BRINE_H
#define BRINE_H

#include "well.h"

struct brine_sheet {
    const char *name; /* as it was given */
    size_t code, n;
    uint64_t saves;
    uint8_t digest[DIGEST_MOST];
    char fault[WORDS_MOST]; /* empty where the sheet is sound */
};

/* An injector of a sound sheet. Figures are in kilograms a day; spare is below 0 where it is overloaded. */
struct brine_row {
    size_t sheet, place; /* counted from 0 */
    uint32_t number;
    uint64_t intake, capacity;
    int64_t spare;
    uint8_t note[NOTE];
    size_t note_len;
};

/* Rows: the overloaded ones first, that with the least to spare before the others; then the rest as the sheets have
   them. */
struct brine {
    size_t sheets_n, rows_n;
    struct brine_sheet sheets[LUFFA_BATCH_MOST];
    struct brine_row rows[LUFFA_BATCH_MOST * LUFFA_SHEET_MOST];
    struct luffa_brine_answer total;
};

/* Works out the statement of the lists of so many sheets, whose heads stand in brine->sheets already. Gives the
   library's answer. */
uint64_t brine_state(struct brine *brine, const struct list *lists);

/* Prints the rows, the faulted sheets and the summary line; that line alone; or the rows and the faulted sheets as
   CSV. */
void brine_print(const struct brine *brine);
void brine_summary(const struct brine *brine);
void brine_csv(const struct brine *brine);

/* The page: HTML that needs nothing but itself. `when` is the time of its making, in words. (page.c) */
void brine_page(FILE *to, const struct brine *brine, const char *when);

#endif
