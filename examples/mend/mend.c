/* A disk gives back a sheet with spoiled marks: a save is turned away, though nobody else has saved. The
   marks are mended, the records are held against the digest that was kept, and the save goes through.
   Then the disk spoils a record, which no mender can put right. To build it:
   gcc -Iinclude examples/mend/mend.c target/staticlib/libluffa.a -o mend
*/
#include <luffa.h>
#include <stdio.h>
#include <string.h>

enum { N = 100, RECORD = LUFFA_SHEET_RECORD_BYTES, MARKS_LEN = LUFFA_MARKS_FOR(N) };

/* What is kept of a sheet, as a file has it. The digest stands there too: without it nobody could tell
   whether the records are those that were saved. */
static struct {
    uint8_t sheet[RECORD * N], digest[LUFFA_256_BYTES];
    uint32_t marks[MARKS_LEN];
} kept;

static void show(const char *what, struct luffa_sheet_answer answer)
{
    printf("%-9s answer %2u, %u rounds\n", what, (unsigned)answer.number, (unsigned)answer.rounds);
}

/* Writes the sheet and its marks for the first time. */
static void make(void)
{
    for (unsigned i = 0; i < N; i++)
        snprintf((char *)kept.sheet + RECORD * i, RECORD, "injector %u: 40 kg", i);
    show("built", luffa_sheet_build(LUFFA_256, kept.sheet, sizeof kept.sheet, N, kept.marks, MARKS_LEN, kept.digest,
                                    sizeof kept.digest));
}

/* A digest that is the claim of the next save is kept only where the save was done. */
static void save(size_t place, const char *text)
{
    uint8_t record[RECORD] = {0}, after[LUFFA_256_BYTES];

    snprintf((char *)record, sizeof record, "%s", text);
    struct luffa_sheet_answer answer =
        luffa_sheet_change(LUFFA_256, kept.sheet, sizeof kept.sheet, N, kept.marks, MARKS_LEN, place, record,
                           sizeof record, kept.digest, sizeof kept.digest, after, sizeof after);
    show("save", answer);
    if (answer.number == LUFFA_DONE)
        memcpy(kept.digest, after, sizeof after);
}

/* Mends the marks, and says whether the records are those that were saved: the mender takes them as they
   are, and makes the marks true to them. */
static int mend(void)
{
    uint8_t digest[LUFFA_256_BYTES];
    struct luffa_mend_answer answer =
        luffa_sheet_mend(LUFFA_256, kept.sheet, sizeof kept.sheet, N, kept.marks, MARKS_LEN);

    if (answer.number != LUFFA_DONE) {
        printf("mend      answer %2u\n", (unsigned)answer.number);
        return 0;
    }
    /* Where none was wrong, first is 0 too. */
    if (answer.wrong == 0)
        printf("mend      no mark was wrong, %u rounds\n", (unsigned)answer.rounds);
    else
        printf("mend      %u of %u marks were wrong, the first was mark %u, %u rounds\n", (unsigned)answer.wrong,
               (unsigned)(MARKS_LEN / LUFFA_MARK_WORDS), (unsigned)answer.first, (unsigned)answer.rounds);

    int same = luffa_digest(LUFFA_256, kept.sheet, sizeof kept.sheet, digest, sizeof digest) == LUFFA_DONE &&
               memcmp(digest, kept.digest, sizeof digest) == 0;
    printf("records   %s\n", same ? "those that were saved" : "not those that were saved");
    return same;
}

int main(void)
{
    make();

    /* A bit of mark 7, all of mark 25, and a word of mark 12 that code 2 doesn't use. */
    kept.marks[LUFFA_MARK_WORDS * 7 + 3] ^= 0x400;
    memset(kept.marks + LUFFA_MARK_WORDS * 25, 0, 4 * LUFFA_MARK_WORDS);
    kept.marks[LUFFA_MARK_WORDS * 12 + 39] = 1;
    save(97, "injector 97: 55 kg");
    if (!mend())
        return 1;
    save(97, "injector 97: 55 kg");
    mend();

    /* A byte of record 41, which is in the group before mark 11: this mark and all after it were another
       sheet's. */
    kept.sheet[RECORD * 41 + 13] ^= 1;
    if (!mend())
        puts("          fetch the copy of last night");
    return fflush(stdout) != 0;
}
