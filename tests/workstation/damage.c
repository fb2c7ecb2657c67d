/* Files of sheets: a whole one is read as it was written, and none that was cut off, lengthened or altered in a bit is
   read at all. `damage full FILE CODE` writes a full sheet instead. */
#include "../../workstation/sheet.h"
#include <stdio.h>
#include <stdlib.h>
#include <string.h>

static struct sheet sheet, read_back;
static uint8_t bytes[FILE_MOST];
static size_t len;

static void fail(const char *what, size_t at)
{
    printf("damage: %s (code %zu, %zu records, at %zu)\n", what, sheet.code, sheet.list.n, at);
    exit(1);
}

static void make(size_t code, size_t n)
{
    memset(&sheet, 0, sizeof sheet);
    sheet.code = code;
    sheet.list.n = n;
    sheet.saves = 7 * n;
    sheet.logged = 1000 * n;
    for (size_t i = 0; i < n; i++) {
        put_number(sheet.list.records + RECORD * i, 2, i + 1);
        sheet.list.records[RECORD * i + LUFFA_WELL_KIND] = LUFFA_INJECTOR;
    }
    if (sheet_build(&sheet) != LUFFA_DONE)
        fail("not built", 0);
    len = sheet_to_bytes(&sheet, "", bytes);
}

/* Reads a copy that has just these bytes, so that a look beyond them is seen. */
static int taken(size_t n)
{
    uint8_t *copy = malloc(n > 0 ? n : 1);
    const char *wrong;

    if (!copy)
        fail("no room", n);
    memcpy(copy, bytes, n);
    wrong = sheet_from_bytes(&read_back, "", copy, n, NULL);
    free(copy);
    return wrong == NULL;
}

/* Where the reader may mend, an altered mark is mended and counted, and anything else is refused all the same. */
static void mended(size_t at)
{
    struct luffa_mend_answer spoiled = {0};
    int marks = at >= HEAD + RECORD * sheet.list.n;
    int read_so = sheet_from_bytes(&read_back, "", bytes, len, &spoiled) == NULL;

    if (read_so != marks)
        fail(marks ? "a spoiled mark wasn't mended" : "altered, and mended", at);
    if (marks && (spoiled.wrong != 1 || spoiled.first != (at - HEAD - RECORD * sheet.list.n) / 160 ||
                  memcmp(&sheet, &read_back, sizeof sheet) != 0))
        fail("mended to something else", at);
}

/* A head that is nonsense, but sealed. */
static void sealed(size_t at, size_t n, uint64_t number)
{
    uint8_t old[HEAD];

    memcpy(old, bytes, HEAD);
    put_number(bytes + at, n, number);
    luffa_digest(LUFFA_256, bytes, SEALED, bytes + SEALED, LUFFA_256_BYTES);
    if (taken(len))
        fail("a sealed head with a wrong number was taken", at);
    memcpy(bytes, old, HEAD);
}

static void every(size_t code, size_t n)
{
    make(code, n);
    if (!taken(len) || memcmp(&sheet, &read_back, sizeof sheet) != 0)
        fail("not read as it was written", len);
    for (size_t cut = 0; cut < len; cut++)
        if (taken(cut))
            fail("cut off, and taken", cut);
    bytes[len] = 0;
    if (taken(len + 1))
        fail("longer, and taken", len + 1);
    for (size_t bit = 0; bit < 8 * len; bit++) {
        bytes[bit / 8] ^= (uint8_t)(1 << bit % 8);
        if (taken(len))
            fail("altered, and taken", bit / 8);
        mended(bit / 8);
        bytes[bit / 8] ^= (uint8_t)(1 << bit % 8);
    }
    sealed(8, 4, 1);
    sealed(8, 4, 3);
    sealed(12, 4, 0);
    sealed(12, 4, 5);
    sealed(12, 4, 0xffffffff);
    sealed(12, 4, code % 4 + 1);
    sealed(16, 4, n + 1);
    sealed(16, 4, LUFFA_SHEET_MOST + 1);
    sealed(16, 4, 0xffffffff);
    sealed(20, 4, 1);
    if (digest_bytes(code) < DIGEST_MOST)
        sealed(40 + digest_bytes(code), 1, 1);
}

int main(int argc, char **argv)
{
    static const size_t n[] = {0, 1, 3, 4, 5, 9};

    if (argc == 4 && strcmp(argv[1], "full") == 0) {
        FILE *f = fopen(argv[2], "wb");
        make((size_t)atoi(argv[3]), LUFFA_SHEET_MOST);
        /* No saves: its log is an empty one. */
        sheet.saves = sheet.logged = 0;
        len = sheet_to_bytes(&sheet, "", bytes);
        return !f || fwrite(bytes, 1, len, f) != len || fclose(f) != 0;
    }
    for (size_t code = 1; code <= 4; code++)
        for (size_t i = 0; i < sizeof n / sizeof *n; i++)
            every(code, n[i]);
    make(LUFFA_512, LUFFA_SHEET_MOST);
    if (!taken(len) || memcmp(&sheet, &read_back, sizeof sheet) != 0)
        fail("a full sheet isn't read as it was written", len);
    puts("damage: every cut and every altered bit is refused");
    return 0;
}
