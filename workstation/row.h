/*
 * A sheet and a save as rows of the tables plan.sheets and plan.saves. What is read is checked as a file is: by the
 * seal, the digest and the marks; the seal of a sheet's row covers its name too, and each save has a seal of its own:
 *   a sheet's   the one that sheet.h gives a file, over the head with no bytes of a log, and the sheet's name
 *   a save's    the 256-bit digest of the entry's bytes (entry.h), then the id's 16 bytes, the save's number as
 *               8 bytes, high byte first, and the sheet's name
 */
#ifndef ROW_H
#define ROW_H

#include "entry.h"
#include "server.h"

enum { ID = 16 };

/* The columns that each function below reads or adds, in this order. */
#define SHEET_COLUMNS "code, record_count, records, marks, digest, saves, seal"
#define SAVE_COLUMNS "number, id, who, at, digest_before, steps, digest_after, seal"

/* Adds the columns of a sheet of a name. They stand until the next call. */
void values_sheet(struct values *values, const struct sheet *sheet, const char *name);

/* Adds those of a save of a sheet of a name and a code. They stand until the next call. */
void values_save(struct values *values, const struct entry *entry, uint64_t number, const uint8_t id[ID],
                 const char *name, size_t code);

/* Read the first row of a result, and any row from a column on. They give null, or say what is wrong; then what was
   read isn't to be used. `spoiled` is that of sheet_from_bytes. */
const char *sheet_from_row(struct sheet *sheet, const PGresult *result, const char *name,
                           struct luffa_mend_answer *spoiled);
const char *save_from_row(struct entry *entry, uint64_t *number, const PGresult *result, int row, int column,
                          const char *name, size_t code);

#endif
