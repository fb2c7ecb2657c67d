/* The functions of records.h. */
#include "records.h"
#include <stdarg.h>
#include <stdlib.h>
#include <string.h>

void check(int holds, const char *words, ...)
{
    va_list arguments;

    if (holds)
        return;
    va_start(arguments, words);
    vprintf(words, arguments);
    va_end(arguments);
    putchar('\n');
    exit(1);
}

/* splitmix64: small, and the next seed is as good as this one. */
static uint64_t state;

void seed(uint64_t from) { state = from; }

static uint64_t random64(void)
{
    uint64_t z = state += UINT64_C(0x9e3779b97f4a7c15);

    z = (z ^ z >> 30) * UINT64_C(0xbf58476d1ce4e5b9);
    z = (z ^ z >> 27) * UINT64_C(0x94d049bb133111eb);
    return z ^ z >> 31;
}

size_t below(size_t n) { return (size_t)(random64() % n); }

int one_in(size_t n) { return below(n) == 0; }

void any_bytes(uint8_t *bytes, size_t n)
{
    for (size_t i = 0; i < n; i++)
        bytes[i] = (uint8_t)random64();
}

/* What a note is put together from: words, what means something to a CSV file, to a spreadsheet or to this form, and
   characters that are none, or that no screen should get: overlong ones, halves, controls, marks of direction. */
static const char *const pieces[] = {
    "north", "7", "a", "Z", " ", ",", "\"", "\"\"", "\r\n", "\n", "\r", "\t", "=", "+", "-", "@", "\\", "\\x41",
    "\\\\", "\x01", "\x1b[", "\x7f", "\xc3\xa9", "\xe4\xba\x95", "\xf0\x9f\x8c\x8b", "\xe2\x80\xae", "\xe2\x81\xa6",
    "\xc2\xad", "\xc3", "\xe4\xba", "\x80", "\xc0\x80", "\xff", "\xed\xa0\x80", "\xf4\x90\x80\x80", "\xef\xb7\x90",
    "\xef\xbf\xbe", "\xe2\x80\xa8", "\xef\xbb\xbf", "\xc2\x85", "\xf0\x9d\x85\xb3",
};

void any_note(uint8_t *bytes, size_t n)
{
    size_t at = 0;

    memset(bytes, 0, n);
    while (at < n && !one_in(6)) {
        const char *piece = pieces[below(COUNT_OF(pieces))];
        size_t len = strlen(piece) < n - at ? strlen(piece) : n - at;
        memcpy(bytes + at, piece, len);
        at += len;
    }
    if (one_in(8))
        any_bytes(bytes + below(n), 1);
}

uint32_t number_at(const uint8_t *bytes, size_t n)
{
    return n == 0 ? 0 : number_at(bytes, n - 1) << 8 | bytes[n - 1];
}

static void put(uint8_t *bytes, size_t n, uint32_t number)
{
    for (size_t i = 0; i < n; i++)
        bytes[i] = (uint8_t)(number >> 8 * (n - 1 - i));
}

void put_well(uint8_t *record, const struct well *well, const char *note)
{
    memset(record, 0, RECORD);
    put(record, 2, well->number);
    put(record + 2, 1, well->kind);
    put(record + 3, 1, well->links);
    put(record + 4, 4, well->rate);
    for (size_t k = 0; k < LINKS; k++) {
        put(record + 8 + 4 * k, 2, well->link[k].injector);
        put(record + 10 + 4 * k, 2, well->link[k].share);
    }
    memcpy(record + 24, note, strlen(note) < NOTE ? strlen(note) : NOTE);
}

static void any_well(uint8_t *record)
{
    struct well well = {.number = (uint32_t)below(one_in(4) ? 65536 : 300),
                        .kind = one_in(9) ? (uint32_t)below(256) : 1 + (uint32_t)below(2),
                        .links = (uint32_t)below(LINKS + 1),
                        .rate = one_in(9) ? (uint32_t)random64() : (uint32_t)below(100001)};

    for (size_t k = 0; k < well.links; k++) {
        well.link[k].injector = (uint32_t)below(one_in(4) ? 65536 : 300);
        well.link[k].share = (uint32_t)below(one_in(9) ? 65536 : 1001);
    }
    put_well(record, &well, "");
    if (one_in(6))
        any_bytes(record + LUFFA_WELL_NOTE, NOTE);
    else
        any_note(record + LUFFA_WELL_NOTE, NOTE);
}

void any_list(struct list *list, size_t n)
{
    memset(list, 0, sizeof *list);
    list->n = n;
    for (size_t i = 0; i < n; i++) {
        uint8_t *record = list->records + RECORD * i;
        size_t kind = below(16);

        if (kind == 0)
            any_bytes(record, RECORD);
        else if (kind < 15)
            any_well(record);
        if (kind == 1)
            any_bytes(record + below(RECORD), 1);
    }
}

int can_be_shown(uint32_t character)
{
    /* From the tables of Unicode: controls, format characters that show nothing, separators of lines, halves of pairs,
       and what is set aside for no character, but for the last two of each plane. */
    static const uint32_t not_shown[][2] = {
        {0, 0x1f}, {0x7f, 0x9f}, {0xad, 0xad}, {0x61c, 0x61c}, {0x180e, 0x180e},
        {0x200b, 0x200f}, {0x2028, 0x202e}, {0x2060, 0x206f}, {0xd800, 0xdfff}, {0xfdd0, 0xfdef},
        {0xfeff, 0xfeff}, {0xfff9, 0xfffb}, {0x1bca0, 0x1bca3}, {0x1d173, 0x1d17a}, {0xe0000, 0xe0fff},
    };

    for (size_t i = 0; i < COUNT_OF(not_shown); i++)
        if (character >= not_shown[i][0] && character <= not_shown[i][1])
            return 0;
    return character <= 0x10ffff && character % 0x10000 < 0xfffe;
}

/* By the table of RFC 3629: which bytes begin a character, and which second byte each of them allows. */
int all_shown(const char *text, size_t len)
{
    static const struct {
        uint8_t first, last, second, second_last;
        size_t len;
    } table[] = {{0x00, 0x7f, 0, 0, 1},       {0xc2, 0xdf, 0x80, 0xbf, 2}, {0xe0, 0xe0, 0xa0, 0xbf, 3},
                 {0xe1, 0xec, 0x80, 0xbf, 3}, {0xed, 0xed, 0x80, 0x9f, 3}, {0xee, 0xef, 0x80, 0xbf, 3},
                 {0xf0, 0xf0, 0x90, 0xbf, 4}, {0xf1, 0xf3, 0x80, 0xbf, 4}, {0xf4, 0xf4, 0x80, 0x8f, 4}};
    const uint8_t *at = (const uint8_t *)text, *end = at + len;

    while (at < end) {
        uint32_t character;
        size_t row = 0;

        if (*at >= ' ' && *at <= '~') { /* nearly all are, and a million texts are judged */
            at++;
            continue;
        }
        while (row < COUNT_OF(table) && !(*at >= table[row].first && *at <= table[row].last))
            row++;
        if (row == COUNT_OF(table) || (size_t)(end - at) < table[row].len)
            return 0;
        character = row == 0 ? *at : *at & (0x7fu >> table[row].len);
        for (size_t i = 1; i < table[row].len; i++) {
            if (at[i] < (i == 1 ? table[row].second : 0x80) || at[i] > (i == 1 ? table[row].second_last : 0xbf))
                return 0;
            character = character << 6 | (at[i] & 0x3fu);
        }
        if (!can_be_shown(character))
            return 0;
        at += table[row].len;
    }
    return 1;
}
