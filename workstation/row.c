/* The functions of row.h. */
#include "say.h"
#include "text.h"
#include <string.h>

#ifdef PLAN_POSTGRESQL
#include "row.h"

/* The server counts microseconds from the year 2000. */
#define SECONDS_BEFORE 946684800
#define TICKS 1000000

void values_sheet(struct values *values, const struct sheet *sheet, const char *name)
{
    static uint8_t bytes[FILE_MOST];
    size_t n = sheet->list.n;

    sheet_to_bytes(sheet, name, bytes);
    values_number(values, 2, (int64_t)sheet->code);
    values_number(values, 4, (int64_t)n);
    values_bytes(values, bytes + HEAD, RECORD * n);
    values_bytes(values, bytes + HEAD + RECORD * n, 4 * LUFFA_MARKS_FOR(n));
    values_bytes(values, sheet->digest, digest_bytes(sheet->code));
    values_number(values, 8, (int64_t)sheet->saves);
    values_bytes(values, bytes + SEALED, LUFFA_256_BYTES);
}

/* The seal of a save. Gives where its steps stand among the bytes that it is over. */
static const uint8_t *seal(uint8_t out[LUFFA_256_BYTES], const struct entry *entry, uint64_t number,
                           const uint8_t id[ID], const char *name)
{
    static uint8_t bytes[ENTRY_MOST + ID + 8 + SHEET_NAME_MOST];
    size_t len = entry_to_bytes(entry, bytes);

    memcpy(bytes + len, id, ID);
    put_number(bytes + len + ID, 8, number);
    memcpy(bytes + len + ID + 8, name, strlen(name));
    luffa_digest(LUFFA_256, bytes, len + ID + 8 + strlen(name), out, LUFFA_256_BYTES);
    return bytes + ENTRY_HEAD;
}

static size_t trimmed(const uint8_t who[WHO])
{
    size_t n = WHO;

    while (n > 0 && who[n - 1] == 0)
        n--;
    return n;
}

void values_save(struct values *values, const struct entry *entry, uint64_t number, const uint8_t id[ID],
                 const char *name, size_t code)
{
    static uint8_t sealed[LUFFA_256_BYTES];
    static char who[TEXT_MOST(WHO)];
    const uint8_t *steps = seal(sealed, entry, number, id, name);

    text_from_bytes(who, entry->who, trimmed(entry->who));
    values_number(values, 8, (int64_t)number);
    values_bytes(values, id, ID);
    values_text(values, who);
    values_number(values, 8, (entry->when - SECONDS_BEFORE) * TICKS);
    values_bytes(values, entry->before, digest_bytes(code));
    values_bytes(values, steps, STEP * entry->steps.n);
    values_bytes(values, entry->after, digest_bytes(code));
    values_bytes(values, sealed, sizeof sealed);
}

/* A cell that has to have just so many bytes. Gives 0 where it has others. */
static int take(uint8_t *bytes, size_t n, const PGresult *result, int row, int column)
{
    size_t len;
    const uint8_t *from = cell(result, row, column, &len);

    if (len != n)
        return 0;
    memcpy(bytes, from, n);
    return 1;
}

/* The row is made a file's bytes again, and read as one. */
const char *sheet_from_row(struct sheet *sheet, const PGresult *result, const char *name,
                           struct luffa_mend_answer *spoiled)
{
    static struct sheet row;
    static uint8_t bytes[FILE_MOST], words[4 * MARKS_MOST];
    uint8_t sealed[LUFFA_256_BYTES];
    int64_t code = cell_number(result, 0, 0), n = cell_number(result, 0, 1);
    size_t marks;

    if (code < 1 || code > 4 || n < 0 || n > LUFFA_SHEET_MOST)
        return "its row names a sheet that can't be";
    memset(&row, 0, sizeof row);
    row.code = (size_t)code;
    row.list.n = (size_t)n;
    row.saves = (uint64_t)cell_number(result, 0, 5);
    marks = LUFFA_MARKS_FOR(row.list.n);
    if (!take(row.list.records, RECORD * row.list.n, result, 0, 2) || !take(words, 4 * marks, result, 0, 3) ||
        !take(row.digest, digest_bytes(row.code), result, 0, 4) || !take(sealed, sizeof sealed, result, 0, 6))
        return "its row hasn't the lengths that its records, marks, digest and seal need";
    for (size_t i = 0; i < marks; i++)
        row.marks[i] = (uint32_t)get_number(words + 4 * i, 4);
    n = (int64_t)sheet_to_bytes(&row, name, bytes);
    if (memcmp(sealed, bytes + SEALED, sizeof sealed) != 0)
        return "its row doesn't have the seal that it should";
    return sheet_from_bytes(sheet, name, bytes, (size_t)n, spoiled);
}

/* The name in an entry, which stands in its row as a text that can be shown. */
static int take_who(uint8_t who[WHO], const PGresult *result, int row, int column)
{
    char again[TEXT_MOST(WHO)];
    size_t len, at;
    const char *text = (const char *)cell(result, row, column, &len), *why;
    long n = bytes_from_text(who, WHO, text, len, &at, &why);

    return n >= 0 && text_from_bytes(again, who, trimmed(who)) == len && memcmp(again, text, len) == 0;
}

const char *save_from_row(struct entry *entry, uint64_t *number, const PGresult *result, int row, int column,
                          const char *name, size_t code)
{
    uint8_t id[ID], sealed[LUFFA_256_BYTES], found[LUFFA_256_BYTES];
    int64_t ticks = cell_number(result, row, column + 3);
    size_t len;
    const uint8_t *steps = cell(result, row, column + 5, &len);

    memset(entry->who, 0, sizeof entry->who);
    memset(entry->before, 0, sizeof entry->before);
    memset(entry->after, 0, sizeof entry->after);
    *number = (uint64_t)cell_number(result, row, column);
    entry->when = ticks / TICKS + SECONDS_BEFORE;
    entry->steps.n = len / STEP;
    if (ticks % TICKS != 0 || len % STEP != 0 || len == 0 || entry->steps.n > STEPS_MOST ||
        !take(id, sizeof id, result, row, column + 1) || !take_who(entry->who, result, row, column + 2) ||
        !take(entry->before, digest_bytes(code), result, row, column + 4) ||
        !take(entry->after, digest_bytes(code), result, row, column + 6) ||
        !take(sealed, sizeof sealed, result, row, column + 7))
        return "a save in it isn't one";
    steps_from_bytes(&entry->steps, steps);
    /* What the steps leave unused is zero, or it isn't what was written. */
    return memcmp(seal(found, entry, *number, id, name), steps, len) == 0 && memcmp(sealed, found, sizeof sealed) == 0
               ? NULL
               : "a save in it doesn't have the seal that it should";
}

#endif
