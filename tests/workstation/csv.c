/* The CSV form: `csv [FILES [SEED]]` tries cases by hand, lists of every kind there and back, and random and damaged
   files, a million unless it is said how many. For a second reader `csv sample FILE SEED` writes the file of a random
   list and prints its records, and `csv read FILE` prints those of a file. */
#include "csv_test.h"
#include <stdlib.h>
#include <string.h>

/* Lines and characters as csv.h counts them; a column may also be the end of its line. */
static void judge_place(const uint8_t *text, size_t len, const struct csv_fault *fault)
{
    const uint8_t *at = text, *end = text + len;
    size_t columns = 1;

    check(fault->line >= 1 && fault->column >= 1, "a fault before the first line or column: %s", fault->words);
    for (size_t line = 1; line < fault->line; line++) {
        at = memchr(at, '\n', (size_t)(end - at));
        check(at != NULL, "line %zu is past the end: %s", fault->line, fault->words);
        at++;
    }
    for (; at < end && *at != '\n'; at++)
        columns += (*at & 0xc0) != 0x80;
    check(fault->column <= columns, "line %zu has no column %zu: %s", fault->line, fault->column, fault->words);
}

int read_lent(struct list *list, char opened[OPENED_MOST], const uint8_t *text, size_t len, struct csv_fault *fault)
{
    static const uint8_t zeros[sizeof list->records];
    uint8_t *block = malloc(len > 0 ? len : 1);
    uint8_t *lent = len > 0 ? block : block + 1;
    int done;

    check(block != NULL, "no room for %zu bytes", len);
    memcpy(lent, text, len);
    memset(list, 0xa5, sizeof *list);
    memset(opened, 0xa5, OPENED_MOST);
    memset(fault, 0, sizeof *fault);
    done = csv_read(list, opened, lent, len, fault);
    if (done) {
        check(list->n <= LUFFA_SHEET_MOST, "a list of %zu records", list->n);
        check(memcmp(list->records + RECORD * list->n, zeros, RECORD * (LUFFA_SHEET_MOST - list->n)) == 0,
              "the room behind %zu records isn't zero", list->n);
    } else {
        judge_place(lent, len, fault);
        check(fault->words[0] && all_shown(fault->words, strlen(fault->words)), "words that can't be shown");
    }
    free(block);
    return done;
}

/* What a spreadsheet takes for more than a text begins with one of these, or with a control. */
static int begins_badly(uint8_t byte) { return byte < ' ' || strchr("=+-@", byte); }

/* Whether every line has its cells, none begins badly, and nothing stands there that can't be shown. */
static void well_formed(const uint8_t *text, size_t len, size_t lines, const char *opened)
{
    size_t cells = 1, line = 1, from = 0;
    int quoted = 0;

    check(len > 0 && len <= CSV_MOST / 2 && text[len - 1] == '\n', "a text of %zu bytes", len);
    for (size_t i = 0; i < len; i++) {
        int first = i == 0 || (!quoted && (text[i - 1] == ',' || text[i - 1] == '\n'));
        size_t begin = first && text[i] == '"' ? i + 1 : i;

        check(!first || text[i] == ',' || text[i] == '\n' || !begins_badly(text[begin]),
              "line %zu: a cell begins with %d", line, text[begin]);
        if (text[i] == '"')
            quoted = !quoted;
        if (!quoted && text[i] == ',')
            cells++;
        if (text[i] == '\n') {
            check(!quoted && cells == (opened[0] && line == 1 ? (strchr(opened, ',') ? 3 : 2) : 12),
                  "line %zu has %zu cells", line, cells);
            check(all_shown((const char *)text + from, i - from), "line %zu can't be shown", line);
            cells = 1;
            line++;
            from = i + 1;
        }
    }
    check(line == lines + 1, "%zu lines, not %zu", line - 1, lines);
}

void same_again(const struct list *list, const char *opened)
{
    static uint8_t text[CSV_MOST], again[CSV_MOST];
    static struct list back;
    size_t len = csv_write(text, list, opened);
    struct csv_fault fault;
    char digest[OPENED_MOST];
    int done;

    well_formed(text, len, list->n + 1 + (opened[0] != 0), opened);
    done = read_lent(&back, digest, text, len, &fault);
    check(done, "what was written isn't read: line %zu, column %zu, %s", fault.line, fault.column, fault.words);
    check(memcmp(&back, list, sizeof back) == 0, "other records, or more or fewer");
    check(strcmp(digest, opened) == 0, "opened %s, not %s", digest, opened);
    check(csv_write(again, &back, digest) == len && memcmp(again, text, len) == 0, "another text");
}

void any_digest(char opened[OPENED_MOST])
{
    size_t half = one_in(2) ? 0 : 2 * digest_bytes(1 + below(4)), len = half > 0 && one_in(2) ? 2 * half + 1 : half;

    for (size_t i = 0; i < len; i++)
        opened[i] = i > 0 && i == half ? ',' : "0123456789abcdef"[below(16)];
    opened[len] = 0;
}

/* Every value of a byte at every place of a note, then lists of every size up to 128 and of larger ones. */
static void there_and_back(void)
{
    static struct list list;
    char opened[OPENED_MOST];

    for (size_t at = 0; at < NOTE; at++) {
        memset(&list, 0, sizeof list);
        list.n = 256;
        for (size_t i = 0; i < list.n; i++) {
            put_well(list.records + RECORD * i, &(struct well){.number = 1, .kind = 1, .rate = 1}, "any");
            list.records[RECORD * i + LUFFA_WELL_NOTE + at] = (uint8_t)i;
        }
        same_again(&list, "");
    }
    for (size_t n = 0; n <= LUFFA_SHEET_MOST; n += n < 128 ? 1 : 14) {
        any_list(&list, n);
        any_digest(opened);
        same_again(&list, "");
        same_again(&list, opened);
        if (n % 8 == 0) {
            any_bytes(list.records, RECORD * n);
            same_again(&list, opened);
        }
    }
}

static void print(const struct list *list, const char *opened)
{
    printf("opened %s\n", opened);
    for (size_t i = 0; i < RECORD * list->n; i++)
        printf("%02x%s", list->records[i], i % RECORD == RECORD - 1 ? "\n" : "");
}

static int sample(const char *name, const char *from)
{
    static struct list list;
    static uint8_t text[CSV_MOST];
    char opened[OPENED_MOST];
    FILE *file = fopen(name, "wb");
    size_t len;

    seed(strtoull(from, NULL, 10));
    any_list(&list, one_in(8) ? below(LUFFA_SHEET_MOST + 1) : below(40));
    any_digest(opened);
    len = csv_write(text, &list, opened);
    print(&list, opened);
    return !file || fwrite(text, 1, len, file) != len || fclose(file) != 0;
}

static int read_file(const char *name)
{
    static struct list list;
    static uint8_t text[CSV_MOST + 1];
    char opened[OPENED_MOST];
    struct csv_fault fault;
    FILE *file = fopen(name, "rb");
    size_t len;

    if (!file)
        return 2;
    len = fread(text, 1, sizeof text, file);
    fclose(file);
    if (!read_lent(&list, opened, text, len, &fault)) {
        printf("line %zu, column %zu: %s\n", fault.line, fault.column, fault.words);
        return 1;
    }
    print(&list, opened);
    return 0;
}

int main(int argc, char **argv)
{
    if (argc == 4 && strcmp(argv[1], "sample") == 0)
        return sample(argv[2], argv[3]);
    if (argc == 3 && strcmp(argv[1], "read") == 0)
        return read_file(argv[2]);
    fixed_cases();
    seed(argc > 2 ? strtoull(argv[2], NULL, 10) : 1);
    there_and_back();
    damaged_files(argc > 1 ? strtoull(argv[1], NULL, 10) : 1000000);
    return 0;
}
