/* A sheet as the workstation holds it, and the bytes that stand for it in a file. */
#ifndef SHEET_H
#define SHEET_H

#include <luffa.h>

#define RECORD LUFFA_SHEET_RECORD_BYTES
#define DIGEST_MOST LUFFA_512_BYTES
#define MARKS_MOST LUFFA_MARKS_FOR(LUFFA_SHEET_MOST)

/* The records of a sheet, in order; the room behind them is zero. */
struct list {
    size_t n;
    uint8_t records[RECORD * LUFFA_SHEET_MOST];
};

struct sheet {
    size_t code;
    uint64_t saves;              /* the saves that were accepted since the sheet was new */
    uint64_t logged;             /* the bytes of the log that are theirs */
    uint8_t digest[DIGEST_MOST]; /* zero behind the digest */
    struct list list;
    uint32_t marks[MARKS_MOST];
};

/*
 * The file, every number high byte first, so that it is the same on every machine:
 *   bytes 0 to 7      "LufSheet"
 *   bytes 8 to 11     the version of this form, 2
 *   bytes 12 to 15    the code
 *   bytes 16 to 19    n, the number of records
 *   bytes 20 to 23    zero
 *   bytes 24 to 31    the saves accepted so far
 *   bytes 32 to 39    the bytes of the log that are theirs (log.h)
 *   bytes 40 to 103   the digest of the sheet, then zeros
 *   bytes 104 to 135  the seal: the 256-bit digest of bytes 0 to 103, and of the name where the sheet is in a database
 *   then              the records, 40 bytes each, and the marks, 40 words each
 * and nothing after them.
 */
#define HEAD 136
#define SEALED 104
#define FILE_MOST (HEAD + RECORD * LUFFA_SHEET_MOST + 4 * MARKS_MOST)
enum { SHEET_NAME_MOST = 100 }; /* of a sheet in a database, in bytes */

/* The bytes of a digest at a code of 1 to 4. */
size_t digest_bytes(size_t code);

void put_number(uint8_t *bytes, size_t n, uint64_t number);
uint64_t get_number(const uint8_t *bytes, size_t n);

/* The record at a place, and whether two records or two lists are the same. */
const uint8_t *record_at(const struct list *list, size_t place);
int same_record(const uint8_t *one, const uint8_t *other);
int same_list(const struct list *one, const struct list *other);

/* Builds marks and digest from the records. Gives the library's answer. */
uint64_t sheet_build(struct sheet *sheet);

/* Writes the file of a sheet, at most FILE_MOST bytes, and gives their number. A sheet in a database has its name in
   the seal; a file, which may be moved, has "". */
size_t sheet_to_bytes(const struct sheet *sheet, const char *name, uint8_t *bytes);

/* Reads a file. Gives null, or says what is wrong with it; then the sheet isn't to be used. Where `spoiled` isn't null,
   marks that aren't those of the records are no fault: they are mended, and it has what was wrong. */
const char *sheet_from_bytes(struct sheet *sheet, const char *name, const uint8_t *bytes, size_t len,
                             struct luffa_mend_answer *spoiled);

#endif
