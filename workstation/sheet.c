/* The functions of sheet.h. */
#include "sheet.h"
#include <string.h>

static const uint8_t magic[8] = {'L', 'u', 'f', 'S', 'h', 'e', 'e', 't'};

size_t digest_bytes(size_t code)
{
    static const size_t bytes[] = {0, LUFFA_224_BYTES, LUFFA_256_BYTES, LUFFA_384_BYTES, LUFFA_512_BYTES};

    return bytes[code];
}

void put_number(uint8_t *bytes, size_t n, uint64_t number)
{
    while (n-- > 0) {
        bytes[n] = (uint8_t)number;
        number >>= 8;
    }
}

uint64_t get_number(const uint8_t *bytes, size_t n)
{
    uint64_t number = 0;

    for (size_t i = 0; i < n; i++)
        number = number << 8 | bytes[i];
    return number;
}

const uint8_t *record_at(const struct list *list, size_t place)
{
    return list->records + RECORD * place;
}

int same_record(const uint8_t *one, const uint8_t *other)
{
    return memcmp(one, other, RECORD) == 0;
}

int same_list(const struct list *one, const struct list *other)
{
    return one->n == other->n && memcmp(one->records, other->records, RECORD * one->n) == 0;
}

static void seal(const uint8_t *head, const char *name, uint8_t out[LUFFA_256_BYTES])
{
    uint8_t sealed[SEALED + SHEET_NAME_MOST];
    size_t len = strlen(name);

    memcpy(sealed, head, SEALED);
    memcpy(sealed + SEALED, name, len);
    luffa_digest(LUFFA_256, sealed, SEALED + len, out, LUFFA_256_BYTES);
}

uint64_t sheet_build(struct sheet *sheet)
{
    memset(sheet->marks, 0, sizeof sheet->marks);
    memset(sheet->digest, 0, sizeof sheet->digest);
    return luffa_sheet_build(sheet->code, sheet->list.records, sizeof sheet->list.records, sheet->list.n, sheet->marks,
                             MARKS_MOST, sheet->digest, DIGEST_MOST)
        .number;
}

size_t sheet_to_bytes(const struct sheet *sheet, const char *name, uint8_t *bytes)
{
    uint8_t *at = bytes + HEAD;
    size_t n = sheet->list.n;

    memset(bytes, 0, HEAD);
    memcpy(bytes, magic, sizeof magic);
    put_number(bytes + 8, 4, 2);
    put_number(bytes + 12, 4, sheet->code);
    put_number(bytes + 16, 4, n);
    put_number(bytes + 24, 8, sheet->saves);
    put_number(bytes + 32, 8, sheet->logged);
    memcpy(bytes + 40, sheet->digest, digest_bytes(sheet->code));
    seal(bytes, name, bytes + SEALED);

    memcpy(at, sheet->list.records, RECORD * n);
    at += RECORD * n;
    for (size_t i = 0; i < LUFFA_MARKS_FOR(n); i++, at += 4)
        put_number(at, 4, sheet->marks[i]);
    return (size_t)(at - bytes);
}

/*
 * What comes back from a disk is in doubt, and luffa.h says: in doubt, build, or mend. So every reading mends the
 * marks, in its own memory, and asks how many were wrong; records that don't give the digest are found by digesting
 * them. It costs what two checksums over the records would, and it finds marks that were false already when they were
 * written, which a checksum would confirm. The head, which neither sees, has a seal. (A workstation that keeps running
 * would build when it opens a sheet, and save from its marks then on.)
 */
const char *sheet_from_bytes(struct sheet *sheet, const char *name, const uint8_t *bytes, size_t len,
                             struct luffa_mend_answer *spoiled)
{
    uint8_t sealed[LUFFA_256_BYTES], digest[DIGEST_MOST] = {0};
    const uint8_t *at = bytes + HEAD;
    struct luffa_mend_answer mended;
    size_t n;

    if (len < sizeof magic || memcmp(bytes, magic, sizeof magic) != 0)
        return "it isn't a sheet of this workstation";
    if (len < HEAD)
        return "it is cut off within its head";
    if (get_number(bytes + 8, 4) != 2)
        return "it has a form that this program doesn't know";
    seal(bytes, name, sealed);
    if (memcmp(sealed, bytes + SEALED, sizeof sealed) != 0)
        return "its head is damaged";
    sheet->code = get_number(bytes + 12, 4);
    sheet->list.n = n = get_number(bytes + 16, 4);
    sheet->saves = get_number(bytes + 24, 8);
    sheet->logged = get_number(bytes + 32, 8);
    memcpy(sheet->digest, bytes + 40, DIGEST_MOST);
    if (sheet->code < 1 || sheet->code > 4 || n > LUFFA_SHEET_MOST || get_number(bytes + 20, 4) != 0)
        return "its head names a sheet that can't be";
    if (len != HEAD + RECORD * n + 4 * LUFFA_MARKS_FOR(n))
        return "it hasn't the length that its records and marks need";

    memset(sheet->list.records, 0, sizeof sheet->list.records);
    memset(sheet->marks, 0, sizeof sheet->marks);
    memcpy(sheet->list.records, at, RECORD * n);
    at += RECORD * n;
    for (size_t i = 0; i < LUFFA_MARKS_FOR(n); i++, at += 4)
        sheet->marks[i] = (uint32_t)get_number(at, 4);

    if (luffa_digest(sheet->code, sheet->list.records, RECORD * n, digest, sizeof digest) != LUFFA_DONE ||
        memcmp(digest, sheet->digest, sizeof digest) != 0)
        return "its records don't give its digest";
    mended =
        luffa_sheet_mend(sheet->code, sheet->list.records, sizeof sheet->list.records, n, sheet->marks, MARKS_MOST);
    if (mended.number != LUFFA_DONE)
        return "its marks can't be worked out";
    if (spoiled)
        *spoiled = mended;
    else if (mended.wrong > 0)
        return "its marks aren't those of its records; `plan mend` mends them";
    return NULL;
}
