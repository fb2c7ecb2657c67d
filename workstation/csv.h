/*
 * A sheet as a CSV file (RFC 4180): a header line, then one well a line, twelve cells each.
 *
 *   number,kind,rate,injector 1,share 1,injector 2,share 2,injector 3,share 3,injector 4,share 4,note
 *   1,producer,500,14,500,15,500,,,,,north
 *   14,injector,600,,,,,,,,,
 *   ,struck,,,,,,,,,,
 *
 * number       0 to 65535
 * kind         producer, injector, or a number from 0 to 255; `struck` for a record of 40 zero bytes, which has no
 *              other cell; `bytes` for one that has no such line (more than four links, or an unused link that isn't
 *              empty): its note is its 40 bytes as 80 hexadecimal digits, and its other cells are empty
 * rate         0 to 4294967295, in tonnes a day
 * injector k,  0 to 65535 both: the links that the well uses, from the first on; both cells of the others are empty
 * share k
 * note         at most 16 bytes, as text.h writes them
 *
 * Every list of records has one such file, and reading it gives the same bytes; whether the wells make sense isn't
 * asked here. Read, but never written: the mark that some programs begin UTF-8 with, lines that end in CR and LF, blank
 * lines, a last line without its end, spaces around everything but a note, words in capitals, quotes that aren't
 * needed, and `bytes` for any record.
 *
 * A text that a planner is editing has a line before the header: `opened,DIGEST`, the digest of the sheet that it was
 * made from, or `opened,DIGEST,FIRST` where it was laid over a newer sheet since, FIRST being that of the sheet first
 * opened.
 */
#ifndef CSV_H
#define CSV_H

#include "sheet.h"

/* No list has a longer file than half of this; a text that is longer after its line `opened` isn't read. */
#define CSV_MOST (512 * 1024)

/* The digits of a digest, and the zero that ends them; and what the line `opened` has after its first comma. */
#define DIGITS_MOST (2 * DIGEST_MOST + 1)
#define OPENED_MOST (2 * DIGITS_MOST)

/* Lines and columns are counted from 1, columns in characters. */
struct csv_fault {
    size_t line, column;
    char words[OPENED_MOST + 64];
};

/* Reads a text. `opened` is what its line `opened` has, one digest or two with a comma between, or empty. Gives 1, or 0
   with the first fault; then list and opened aren't to be used. */
int csv_read(struct list *list, char opened[OPENED_MOST], const uint8_t *text, size_t len, struct csv_fault *fault);

/* Writes the text of a list, with its line `opened` where that isn't empty. Gives its length. */
size_t csv_write(uint8_t text[CSV_MOST], const struct list *list, const char *opened);

/* Writes a text as a cell, in quotes where it needs them, and gives what follows it. One that a spreadsheet would take
   for a formula isn't begun as such: its first byte is written as \x and two digits, which text.h reads back. */
char *csv_cell(char *to, const char *text);

#endif
