/* Random and damaged CSV files. A list is written here by another writer than the workstation's, as planners and
   spreadsheets may write it, and must be read as this list. A damaged file must be refused, or read as a list that is
   written and read the same again. */
#include "csv_test.h"
#include <string.h>

/* Room for a text of CSV_MOST bytes that is doubled a few times. */
enum { ROOM = 16 * CSV_MOST };

/* The text that is being made, and room for a part of it that is moved. */
static uint8_t text[ROOM], held[ROOM];
static size_t len;

static void put(char byte)
{
    check(len < ROOM, "the text is too long to be made");
    text[len++] = (uint8_t)byte;
}

static void puts_on(const char *more)
{
    while (*more)
        put(*more++);
}

/* Writes a cell as it stands or in quotes. */
static void put_cell(const char *cell, size_t n)
{
    int quoted = one_in(5);

    for (size_t i = 0; i < n; i++)
        quoted = quoted || cell[i] == ',' || cell[i] == '"' || cell[i] == '\r' || cell[i] == '\n';
    if (quoted)
        put('"');
    for (size_t i = 0; i < n; i++) {
        if (cell[i] == '"')
            put('"');
        put(cell[i]);
    }
    if (quoted)
        put('"');
}

/* A word, in letters of either case and with spaces around it, and the comma after it. */
static void put_word(const char *word)
{
    char cell[64];
    size_t n = 0, before = one_in(8) ? below(3) : 0, after = one_in(8) ? below(3) : 0;
    int upper = one_in(8);

    for (; before > 0; before--)
        cell[n++] = ' ';
    for (; *word; word++)
        cell[n++] = upper && *word >= 'a' && *word <= 'z' ? (char)(*word - 'a' + 'A') : *word;
    for (; after > 0; after--)
        cell[n++] = ' ';
    put_cell(cell, n);
    put(',');
}

static void put_number_cell(uint32_t number)
{
    char digits[16];
    size_t at = sizeof digits - 1;

    digits[at] = 0;
    do
        digits[--at] = (char)('0' + number % 10);
    while ((number /= 10) > 0);
    if (one_in(16))
        digits[--at] = '0';
    put_word(digits + at);
}

static size_t put_digits(char *to, uint8_t byte)
{
    const char *digits = one_in(2) ? "0123456789abcdef" : "0123456789ABCDEF";

    to[0] = digits[byte >> 4];
    to[1] = digits[byte & 15];
    return 2;
}

/* A note, of which some bytes are escaped that needn't be, and zeros behind it may be written. */
static void put_note(const uint8_t *note)
{
    size_t n = 0, most = NOTE, escaped = 1 + below(8);
    char cell[TEXT_MOST(NOTE)];

    while (most > 0 && note[most - 1] == 0 && !one_in(32))
        most--;
    for (size_t i = 0; i < most; i++)
        if (note[i] == 0 || one_in(escaped + 1)) {
            cell[n++] = '\\';
            cell[n++] = 'x';
            n += put_digits(cell + n, note[i]);
        } else {
            if (note[i] == '\\')
                cell[n++] = '\\';
            cell[n++] = (char)note[i];
        }
    put_cell(cell, n);
}

static void end_line(void)
{
    static const char *const ends[] = {"\n", "\n", "\n", "\r\n", "\r\n", "\n\n", "\r\n\r\n"};

    puts_on(ends[below(COUNT_OF(ends))]);
}

static void put_record(const uint8_t *record)
{
    static const uint8_t zeros[RECORD];
    size_t links = record[3];

    if (memcmp(record, zeros, RECORD) == 0 && !one_in(8)) {
        put(',');
        put_word("struck");
        puts_on(",,,,,,,,,");
    } else if (links > 4 || memcmp(record + 8 + 4 * links, zeros, 16 - 4 * links) != 0 || one_in(32)) {
        char cell[2 * RECORD];
        put(',');
        put_word("bytes");
        puts_on(",,,,,,,,,");
        for (size_t n = 0; n < sizeof cell;)
            n += put_digits(cell + n, record[n / 2]);
        put_cell(cell, sizeof cell);
    } else {
        put_number_cell(number_at(record, 2));
        if ((record[2] == 1 || record[2] == 2) && !one_in(8))
            put_word(record[2] == 1 ? "producer" : "injector");
        else
            put_number_cell(record[2]);
        put_number_cell(number_at(record + 4, 4));
        for (size_t k = 0; k < 8; k++)
            if (k < 2 * links)
                put_number_cell(number_at(record + 8 + 2 * k, 2));
            else
                put(',');
        put_note(record + 24);
    }
}

/* Writes the file of a list and gives where its rows begin. */
static size_t put_file(const struct list *list, const char *opened)
{
    static const char *const names[] = {"number",  "kind",       "rate",    "injector 1", "share 1", "injector 2",
                                        "share 2", "injector 3", "share 3", "injector 4", "share 4", "note"};
    size_t rows;

    len = 0;
    if (one_in(8))
        puts_on("\xef\xbb\xbf");
    if (opened[0]) {
        puts_on("opened,");
        puts_on(opened);
        puts_on(one_in(2) ? "\r\n" : "\n");
    }
    for (size_t i = 0; i < COUNT_OF(names); i++)
        put_word(names[i]);
    len--; /* the comma after the last */
    end_line();
    rows = len;
    for (size_t i = 0; i < list->n; i++) {
        put_record(record_at(list, i));
        if (i + 1 < list->n || one_in(2))
            end_line();
    }
    return rows;
}

/* ---- Damage. */

/* Bytes that mean something, more often than others. */
static uint8_t any_byte(void)
{
    static const char some[] = ",,,,\"\"\"\r\n\n\n\\x 0123456789abcdefproducerinjectorstruckbytesPQ=+-@;\t\xff"
                               "\xc3\xa9\xe4\xba\x95\xef\xbb\xbf";

    return one_in(16) ? (uint8_t)below(256) : (uint8_t)some[below(sizeof some)];
}

/* Puts n bytes in the place of `cut` ones. */
static void splice(size_t at, size_t cut, const uint8_t *bytes, size_t n)
{
    check(len - cut + n <= ROOM, "the text is too long to be damaged");
    memmove(text + at + n, text + at + cut, len - at - cut);
    memcpy(text + at, bytes, n);
    len = len - cut + n;
}

/* A part of the text from a place on: bytes, or the cell or the line around one. */
struct span {
    size_t at, n;
};

static struct span any_span(size_t from)
{
    size_t at = from + below(len - from + 1), left = len - at, most = one_in(8) ? left : 8;

    return (struct span){at, below((left < most ? left : most) + 1)};
}

static struct span any_between(size_t from, const char *marks)
{
    size_t at = from + below(len - from + 1), end = at;

    while (at > from && !memchr(marks, text[at - 1], strlen(marks)))
        at--;
    while (end < len && !memchr(marks, text[end], strlen(marks)))
        end++;
    return (struct span){at, end - at};
}

static void exchange(struct span one, struct span other)
{
    size_t between;

    if (one.at > other.at) {
        struct span first = other;
        other = one;
        one = first;
    }
    if (one.at + one.n > other.at)
        return;
    between = other.at - one.at - one.n;
    memcpy(held, text + other.at, other.n);
    memcpy(held + other.n, text + one.at + one.n, between);
    memcpy(held + other.n + between, text + one.at, one.n);
    memcpy(text + one.at, held, other.n + between + one.n);
}

static void copy_to(size_t at, struct span from)
{
    memcpy(held, text + from.at, from.n);
    splice(at, 0, held, from.n);
}

/* One damage to the text from a place on. */
static void damage(size_t from)
{
    size_t at = from + below(len - from + 1), n = one_in(32) ? below(200) : 1 + below(4);
    struct span span = any_span(from), line = any_between(from, "\n"), cell = any_between(from, ",\n");
    uint8_t bytes[200];

    for (size_t i = 0; i < n; i++)
        bytes[i] = any_byte();
    switch (below(11)) {
    case 0: /* other bits */
        for (; n > 0 && from < len; n--)
            text[from + below(len - from)] ^= (uint8_t)(1 << below(8));
        break;
    case 1: /* a part less, more, twice, or in the place of another */
        splice(span.at, span.n, bytes, 0);
        break;
    case 2:
        splice(at, 0, bytes, n);
        break;
    case 3:
        copy_to(at, span);
        break;
    case 4:
        exchange(span, any_span(from));
        break;
    case 5: /* cut off */
        len = at;
        break;
    case 6: /* lines and cells in each other's place */
        exchange(line, any_between(from, "\n"));
        break;
    case 7:
        exchange(cell, any_between(from, ",\n"));
        break;
    case 8: /* quotes more */
        splice(at, 0, (const uint8_t *)"\"\"\"\"", 1 + below(4));
        break;
    case 9: /* another cell */
        splice(cell.at, cell.n, bytes, n);
        break;
    default: /* a line again at the end, or more often than a sheet has room */
        line.n += line.at + line.n < len;
        put('\n');
        for (n = one_in(64) ? 1100 : 1; n > 0 && len < CSV_MOST; n--)
            copy_to(len, line);
    }
}

/* A text of random bytes, of one alphabet or another, behind a header or not. */
static size_t random_text(void)
{
    static const struct list none;
    static const char *const few[] = {",\"\n", ",\"\r\n0", ",\n 01", ",\"\\x0\n", "\",struck\n"};
    size_t rows = 0, alphabet = below(8);

    len = 0;
    if (!one_in(4))
        rows = put_file(&none, "");
    for (size_t n = below(one_in(64) ? 3000 : 60); n > 0; n--)
        if (alphabet < COUNT_OF(few))
            put(few[alphabet][below(strlen(few[alphabet]))]);
        else
            put((char)(alphabet == COUNT_OF(few) ? below(256) : any_byte()));
    return rows;
}

/* ---- What is made of them. */

/* Every refusal, by words that no other has, and how often it was met. */
static struct {
    const char *words;
    size_t met;
} refusals[] = {
    {"the file has more than 524288 bytes", 0},
    {"the header's cell ", 0},
    {"the digest of the sheet that was opened", 0},
    {"the quote that begins here isn't closed", 0},
    {"after a closing quote stands", 0},
    {"a quote stands in a cell that", 0},
    {"a zero byte", 0},
    {"a carriage return that", 0},
    {"the cell has more than 160 bytes", 0},
    {"the line ends after ", 0},
    {"the line goes on after ", 0},
    {"a sheet has at most 1024 wells", 0},
    {": a struck record has no other cell", 0},
    {": a record as bytes has its note alone", 0},
    {": 80 hexadecimal digits are wanted", 0},
    {": producer, injector or struck is wanted", 0},
    {": a number from 0 to 255 is wanted", 0},
    {": a number from 0 to 65535 is wanted", 0},
    {": a number from 0 to 4294967295 is wanted", 0},
    {": the link before it is empty", 0},
    {": a note has at most 16 bytes", 0},
    {": a backslash stands before another one", 0},
};

/* A fault of a cell begins with what stands there, every other one with its own words. */
static int is_refusal(const char *words, const char *refusal)
{
    return refusal[0] == ':' ? strstr(words, refusal) != NULL : strncmp(words, refusal, strlen(refusal)) == 0;
}

static void count_refusal(const char *words)
{
    size_t i = 0;

    while (i < COUNT_OF(refusals) && !is_refusal(words, refusals[i].words))
        i++;
    check(i < COUNT_OF(refusals), "a refusal that nobody knows: %s", words);
    refusals[i].met++;
}

/* A file: what it was made from, and the line at which its rows begin; one without a header has none. */
struct file {
    enum { WHOLE, RANDOM, DAMAGED } kind;
    struct list list;
    char opened[OPENED_MOST];
    size_t first_row;
};

/* Makes the i-th file. Most have a few wells, some are full, and few are longer than a file may be. Of eight damages
   seven are to the rows. */
static void make_file(struct file *file, size_t i)
{
    size_t rows;

    file->kind = i % 8 == 0 ? WHOLE : i % 8 == 1 ? RANDOM : DAMAGED;
    any_list(&file->list, i % 4096 < 4 ? LUFFA_SHEET_MOST - below(3) : below(5));
    any_digest(file->opened);
    rows = file->kind == RANDOM ? random_text() : put_file(&file->list, file->opened);
    file->first_row = rows == 0 ? SIZE_MAX : 1;
    for (size_t at = 0; at < rows; at++)
        file->first_row += text[at] == '\n';
    if (file->kind == DAMAGED)
        for (size_t times = 1 + below(3); times > 0; times--)
            damage(one_in(8) ? 0 : rows < len ? rows : len);
    while (i % 16384 == 5 && len <= CSV_MOST)
        put('\n');
}

void damaged_files(size_t files)
{
    static struct file file;
    static struct list list;
    size_t whole = 0, others = 0, in_rows = 0, before = 0;
    char opened[OPENED_MOST];
    struct csv_fault fault;

    for (size_t i = 0; i < files; i++) {
        int done;

        make_file(&file, i);
        done = read_lent(&list, opened, text, len, &fault);
        if (file.kind == WHOLE) {
            check(done, "a whole file is refused: line %zu, column %zu, %s", fault.line, fault.column, fault.words);
            check(same_list(&list, &file.list) && strcmp(opened, file.opened) == 0, "a whole file is read as another");
        }
        if (done)
            same_again(&list, opened);
        else
            count_refusal(fault.words);
        whole += file.kind == WHOLE;
        others += done && file.kind != WHOLE;
        in_rows += !done && fault.line >= file.first_row;
        before += !done && fault.line < file.first_row;
    }
    printf("csv: %zu files, %zu whole and read, %zu others read, %zu refused in the rows, %zu before\n", files, whole,
           others, in_rows, before);
    for (size_t i = 0; i < COUNT_OF(refusals); i++)
        printf("%8zu  %s\n", refusals[i].met, refusals[i].words);

    /* So many files meet everything. */
    if (files < 100000)
        return;
    check(others >= files / 10 && in_rows >= files / 4, "too few are read, or refused in their rows");
    for (size_t i = 0; i < COUNT_OF(refusals); i++)
        check(refusals[i].met > 0, "never refused: %s", refusals[i].words);
}
