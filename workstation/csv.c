/* The functions of csv.h. */
#include "csv.h"
#include "well.h"
#include <stdarg.h>
#include <stdio.h>
#include <string.h>

enum { CELLS = 12, CELL_MOST = 160 };

static const char *const names[CELLS] = {"number",  "kind",       "rate",    "injector 1", "share 1", "injector 2",
                                         "share 2", "injector 3", "share 3", "injector 4", "share 4", "note"};

/* A text that is being read: what is left of it, and where that begins. */
struct reading {
    const uint8_t *at, *end;
    size_t line, column;
    struct csv_fault *fault;
};

/* A cell without its quotes, and where it begins. */
struct cell {
    char text[CELL_MOST + 1];
    size_t len, line, column;
};

#if defined(__GNUC__)
__attribute__((format(printf, 4, 5)))
#endif
static int wrong(const struct reading *from, size_t line, size_t column, const char *words, ...)
{
    va_list arguments;

    from->fault->line = line;
    from->fault->column = column;
    va_start(arguments, words);
    vsnprintf(from->fault->words, sizeof from->fault->words, words, arguments);
    va_end(arguments);
    return 0;
}

/* A fault of a cell, which is told by its name; what stands in it is shown. */
static int wrong_cell(const struct reading *from, const struct cell *cell, size_t which, const char *words)
{
    char shown[TEXT_MOST(CELL_MOST)];

    text_from_bytes(shown, (const uint8_t *)cell->text, cell->len < 24 ? cell->len : 24);
    return wrong(from, cell->line, cell->column, "%s \"%s\"%s: %s", names[which], shown, cell->len > 24 ? ".." : "",
                 words);
}

static int line_ends(const struct reading *from)
{
    return from->at == from->end || *from->at == '\n' ||
           (*from->at == '\r' && from->at + 1 < from->end && from->at[1] == '\n');
}

/* Passes over a byte. A column is a character: the bytes that go on with one in UTF-8 don't count. */
static uint8_t next(struct reading *from)
{
    uint8_t byte = *from->at++;

    if (byte == '\n') {
        from->line++;
        from->column = 1;
    } else if ((byte & 0xc0) != 0x80) {
        from->column++;
    }
    return byte;
}

static void end_line(struct reading *from)
{
    while (from->at < from->end && next(from) != '\n')
        ;
}

/* Reads a cell up to the comma or the end of the line after it. */
static int read_cell(struct reading *from, struct cell *cell)
{
    int quoted = from->at < from->end && *from->at == '"';

    cell->len = 0;
    cell->line = from->line;
    cell->column = from->column;
    if (quoted)
        next(from);
    for (;;) {
        size_t line = from->line, column = from->column;

        if (quoted && from->at == from->end)
            return wrong(from, cell->line, cell->column, "the quote that begins here isn't closed");
        if (!quoted && (line_ends(from) || *from->at == ','))
            break;
        if (quoted && *from->at == '"') {
            next(from);
            if (from->at == from->end || *from->at != '"') {
                if (!line_ends(from) && *from->at != ',')
                    return wrong(from, from->line, from->column,
                                 "after a closing quote stands a comma or the line's end");
                break;
            }
        } else if (*from->at == '"') {
            return wrong(from, line, column, "a quote stands in a cell that doesn't begin with one");
        } else if (*from->at == 0) {
            return wrong(from, line, column, "a zero byte");
        } else if (!quoted && *from->at == '\r') {
            return wrong(from, line, column, "a carriage return that doesn't end a line");
        }
        if (cell->len == CELL_MOST)
            return wrong(from, cell->line, cell->column, "the cell has more than %d bytes", CELL_MOST);
        cell->text[cell->len++] = (char)next(from);
    }
    cell->text[cell->len] = 0;
    return 1;
}

/* Reads a line of `wanted` cells and passes over its end. A text that was cut off ends in a line that has fewer. */
static int read_line(struct reading *from, struct cell *cells, size_t wanted)
{
    for (size_t i = 0;; i++) {
        if (!read_cell(from, &cells[i]))
            return 0;
        if (line_ends(from)) {
            if (i + 1 < wanted)
                return wrong(from, from->line, from->column, "the line ends after %zu cell%s, and %zu are wanted",
                             i + 1, i == 0 ? "" : "s", wanted);
            break;
        }
        if (i + 1 == wanted)
            return wrong(from, from->line, from->column, "the line goes on after %zu cells", wanted);
        next(from);
    }
    end_line(from);
    return 1;
}

/* Takes away the spaces around a word or number. */
static void trim(struct cell *cell)
{
    size_t first = strspn(cell->text, " ");

    while (cell->len > first && cell->text[cell->len - 1] == ' ')
        cell->len--;
    cell->len -= first;
    memmove(cell->text, cell->text + first, cell->len);
    cell->text[cell->len] = 0;
}

static int same_word(const struct cell *cell, const char *word)
{
    size_t i = 0;

    for (; i < cell->len && word[i]; i++) {
        char c = cell->text[i];
        if ((c >= 'A' && c <= 'Z' ? (char)(c - 'A' + 'a') : c) != word[i])
            return 0;
    }
    return i == cell->len && !word[i];
}

static int read_number(const struct reading *from, struct cell *cell, size_t which, uint32_t most, uint32_t *out)
{
    uint64_t value = 0;
    char words[64];

    trim(cell);
    for (size_t i = 0; i < cell->len && value <= most; i++)
        value =
            cell->text[i] >= '0' && cell->text[i] <= '9' ? 10 * value + (uint64_t)(cell->text[i] - '0') : UINT64_MAX;
    *out = (uint32_t)value;
    if (cell->len > 0 && value <= most)
        return 1;
    snprintf(words, sizeof words, "a number from 0 to %lu is wanted", (unsigned long)most);
    return wrong_cell(from, cell, which, words);
}

/* All cells but the kind, or but it and the note, are empty. */
static int only(const struct reading *from, struct cell *cells, int but_note, const char *words)
{
    for (size_t i = 0; i < CELLS; i++) {
        if (i == 1 || (but_note && i == CELLS - 1))
            continue;
        trim(&cells[i]);
        if (cells[i].len > 0)
            return wrong_cell(from, &cells[i], i, words);
    }
    return 1;
}

static int read_links(const struct reading *from, struct cell *cells, struct well *well)
{
    for (size_t k = 0; k < LINKS; k++) {
        size_t i = 3 + 2 * k;

        trim(&cells[i]);
        trim(&cells[i + 1]);
        if (cells[i].len == 0 && cells[i + 1].len == 0)
            continue;
        if (well->links < k)
            return wrong_cell(from, &cells[cells[i].len > 0 ? i : i + 1], cells[i].len > 0 ? i : i + 1,
                              "the link before it is empty");
        if (!read_number(from, &cells[i], i, 65535, &well->link[k].injector) ||
            !read_number(from, &cells[i + 1], i + 1, 65535, &well->link[k].share))
            return 0;
        well->links++;
    }
    return 1;
}

static int read_bytes(const struct reading *from, const struct cell *note, uint8_t *record)
{
    if (note->len != 2 * RECORD || note->text[strspn(note->text, "0123456789abcdefABCDEF")])
        return wrong_cell(from, note, CELLS - 1, "80 hexadecimal digits are wanted");
    for (size_t i = 0; i < RECORD; i++) {
        unsigned byte = 0;
        sscanf(note->text + 2 * i, "%2x", &byte);
        record[i] = (uint8_t)byte;
    }
    return 1;
}

static int read_well(const struct reading *from, struct cell *cells, uint8_t *record)
{
    struct cell *kind = &cells[1], *note = &cells[CELLS - 1];
    struct well well = {0};
    const char *why;
    size_t at;

    trim(kind);
    if (same_word(kind, "struck"))
        return only(from, cells, 0, "a struck record has no other cell");
    if (same_word(kind, "bytes"))
        return only(from, cells, 1, "a record as bytes has its note alone") && read_bytes(from, note, record);
    if (!read_number(from, &cells[0], 0, 65535, &well.number))
        return 0;
    if (same_word(kind, "producer"))
        well.kind = LUFFA_PRODUCER;
    else if (same_word(kind, "injector"))
        well.kind = LUFFA_INJECTOR;
    else if (kind->len == 0 || strspn(kind->text, "0123456789") != kind->len)
        return wrong_cell(from, kind, 1, "producer, injector or struck is wanted");
    else if (!read_number(from, kind, 1, 255, &well.kind))
        return 0;
    if (!read_number(from, &cells[2], 2, UINT32_MAX, &well.rate) || !read_links(from, cells, &well))
        return 0;
    if (bytes_from_text(well.note, NOTE, note->text, note->len, &at, &why) < 0)
        return wrong_cell(from, note, CELLS - 1,
                          strncmp(why, "the text", 8) == 0 ? "a note has at most 16 bytes" : why);
    well_write(&well, record);
    return 1;
}

/* The line `opened`, where there is one. A spreadsheet fills it up with empty cells. */
static int read_opened(struct reading *from, char opened[OPENED_MOST])
{
    struct cell cell;

    opened[0] = 0;
    if (from->end - from->at < 7 || memcmp(from->at, "opened,", 7) != 0)
        return 1;
    if (!read_cell(from, &cell))
        return 0;
    for (size_t i = 1; !line_ends(from); i++) {
        next(from);
        if (!read_cell(from, &cell))
            return 0;
        if (cell.len == 0 && i > 1)
            continue;
        if (i > 2 || cell.len == 0 || cell.len % 2 != 0 || cell.len >= DIGITS_MOST ||
            strspn(cell.text, "0123456789abcdef") != cell.len)
            return wrong(from, cell.line, cell.column, "the digest of the sheet that was opened is wanted");
        if (i == 2)
            strcat(opened, ",");
        strcat(opened, cell.text);
    }
    end_line(from);
    return 1;
}

int csv_read(struct list *list, char opened[OPENED_MOST], const uint8_t *text, size_t len, struct csv_fault *fault)
{
    static const uint8_t mark[] = {0xef, 0xbb, 0xbf}; /* that some programs begin a text in UTF-8 with */
    static struct cell cells[CELLS];
    struct reading from = {.at = text, .end = text + len, .line = 1, .column = 1, .fault = fault};

    memset(list, 0, sizeof *list);
    if (len >= sizeof mark && memcmp(text, mark, sizeof mark) == 0)
        from.at += sizeof mark;
    if (!read_opened(&from, opened))
        return 0;
    if (from.end - from.at > CSV_MOST)
        return wrong(&from, 1, 1, "the file has more than %d bytes", CSV_MOST);
    if (!read_line(&from, cells, CELLS))
        return 0;
    for (size_t i = 0; i < CELLS; i++) {
        trim(&cells[i]);
        if (!same_word(&cells[i], names[i]))
            return wrong(&from, cells[i].line, cells[i].column,
                         "the header's cell %zu is \"%s\", as in: number,kind,rate,..", i + 1, names[i]);
    }
    while (from.at < from.end) {
        if (line_ends(&from)) {
            end_line(&from);
            continue;
        }
        if (list->n == LUFFA_SHEET_MOST)
            return wrong(&from, from.line, 1, "a sheet has at most %d wells", LUFFA_SHEET_MOST);
        if (!read_line(&from, cells, CELLS) || !read_well(&from, cells, list->records + RECORD * list->n))
            return 0;
        list->n++;
    }
    return 1;
}

char *csv_cell(char *to, const char *text)
{
    int quoted = strpbrk(text, ",\"\r\n") || text[0] == ' ' || (text[0] && text[strlen(text) - 1] == ' ');

    if (quoted)
        *to++ = '"';
    if (text[0] && strchr("=+-@", text[0]))
        to += sprintf(to, "\\x%02x", (unsigned)(uint8_t)*text++);
    for (; *text; text++) {
        if (*text == '"')
            *to++ = '"';
        *to++ = *text;
    }
    if (quoted)
        *to++ = '"';
    *to = 0;
    return to;
}

static char *write_well(char *to, const uint8_t *record)
{
    struct well well;
    char note[TEXT_MOST(NOTE)];

    if (struck(record))
        return to + sprintf(to, ",struck,,,,,,,,,,\n");
    well_read(&well, record);
    if (!links_fit(&well)) {
        to += sprintf(to, ",bytes,,,,,,,,,,");
        for (size_t i = 0; i < RECORD; i++)
            to += sprintf(to, "%02x", record[i]);
        *to++ = '\n';
        return to;
    }
    to += sprintf(to, "%u,", well.number);
    if (well.kind == LUFFA_PRODUCER || well.kind == LUFFA_INJECTOR)
        to += sprintf(to, "%s", well.kind == LUFFA_PRODUCER ? "producer" : "injector");
    else
        to += sprintf(to, "%u", well.kind);
    to += sprintf(to, ",%u,", well.rate);
    for (size_t k = 0; k < LINKS; k++)
        to += k < well.links ? sprintf(to, "%u,%u,", well.link[k].injector, well.link[k].share) : sprintf(to, ",,");
    text_from_bytes(note, well.note, well.note_len);
    to = csv_cell(to, note);
    *to++ = '\n';
    return to;
}

size_t csv_write(uint8_t text[CSV_MOST], const struct list *list, const char *opened)
{
    char *to = (char *)text;

    if (opened[0])
        to += sprintf(to, "opened,%s\n", opened);
    for (size_t i = 0; i < CELLS; i++)
        to += sprintf(to, "%s%c", names[i], i + 1 < CELLS ? ',' : '\n');
    for (size_t i = 0; i < list->n; i++)
        to = write_well(to, record_at(list, i));
    return (size_t)(to - (char *)text);
}
