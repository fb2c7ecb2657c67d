/* Cycles per byte of the archive and of portable.c over the same messages in one run, of feeding against the one-call digest, and of the
   sheet calls against hashing the whole sheet, with the bars; then the other parts: back.c has the step back over a block, columns.c states by
   columns, bits.c messages that stop inside a byte, output.c longer output, mend.c the mending of marks, batch.c many changes in one save,
   close.c the closing up of struck records, own.c saves with own marks, plans.c what a sheet means, reach.c who depends on a well, stack.c the
   stack of each call. It measures nothing before all have given the same digests, marks and dumps, and the calls on sound sheets were right;
   --check leaves out the clock. */
#include "batch.h"
#include "bench.h"
#include "portable.h"
#include "sse2.h"

#include <stdio.h>
#include <stdlib.h>
#include <string.h>

static uint32_t portable_c_digest(struct job *job)
{
    return portable_digest(job->code, job->message, job->len, job->out, sizeof job->out);
}

static uint32_t sse2_c_digest(struct job *job) { return sse2_digest(job->code, job->message, job->len, job->out, sizeof job->out); }

/* -- The same digests -- */

static void print_out(const char *name, uint32_t answer, const struct job *job)
{
    printf("  %-10s answer %u, output ", name, (unsigned)answer);
    for (size_t i = 0; i < sizeof job->out; i++)
        printf("%02x", job->out[i]);
    printf("\n");
}

/* Both do the job in a filled buffer, and the whole buffers are compared: the bytes after the digest must stay too. */
int same(const char *way, work *a, work *b, const struct job *job)
{
    struct job of_a = *job, of_b = *job;

    uint32_t answer_a = a(&of_a), answer_b = b(&of_b);
    if (answer_a == 0 && answer_b == 0 && memcmp(of_a.out, of_b.out, sizeof of_a.out) == 0)
        return 1;

    printf("DIFFERENT: code %zu, %zu bytes, %zu odd bits, %s\n", job->code, job->len, job->odd, way);
    print_out("archive", answer_a, &of_a);
    print_out("portable C", answer_b, &of_b);
    return 0;
}

/* Appendix C at all codes, so that both being wrong alike is seen too. */
static int appendix_c(work *run)
{
    static const char *const DIGEST[CODES + 1] = {
        "",
        "f29311b87e9e40de7699be23fbeb5a47cb16ea4f5556d47ca40c12ad",
        "f29311b87e9e40de7699be23fbeb5a47cb16ea4f5556d47ca40c12ad764a73bd",
        "9a7abb797a840e2d423c34c91f559f6809bdb2916fb2e9effec2fa0a7a69881be9872480c635d20d2fd6e95d046601a7",
        "f40245973e80d79d0f4b9b202ddd4505b81b8830501bea31612b5817aae387921dcefd808ca2c78020aff59345d6f91f0ee6b2eee113f0cbcf22b64381387e8a",
    };

    for (size_t code = 1; code <= CODES; code++) {
        struct job job = job_of(code, (const uint8_t *)"abc", 3);
        char hex[2 * OUT_BYTES + 1];
        uint32_t answer = run(&job);
        for (size_t i = 0; i < sizeof job.out; i++)
            sprintf(hex + 2 * i, "%02x", job.out[i]);
        if (answer != 0 || strncmp(hex, DIGEST[code], strlen(DIGEST[code])) != 0) {
            printf("WRONG: code %zu, \"abc\" of appendix C\n", code);
            print_out("portable C", answer, &job);
            return 0;
        }
    }
    return 1;
}

/* Every length to 200 meets every place in a block; the larger ones stand around powers of two. Byte by byte the longest are too slow. */
static int check(const uint8_t *message)
{
    static const size_t LARGER[] = {255, 256, 257, 1000, 4095, 4096, 4097, 65535, 65536, 65537, LONGEST - 1, LONGEST};
    static const struct {
        const char *name;
        work *run;
        size_t most;
    } WAYS[] = {
        {"one-call digest", archive_digest, LONGEST},
        {"fed as one piece", archive_one_piece, LONGEST},
        {"fed in 64 KiB pieces", archive_64_kib_pieces, LONGEST},
        {"fed byte by byte", archive_single_bytes, PIECE + 1},
        {"C with SSE2 intrinsics", sse2_c_digest, LONGEST},
    };
    size_t compared = 0;

    if (!appendix_c(portable_c_digest))
        return 0;
    for (size_t i = 0; i < COUNT(WAYS); i++)
        for (size_t code = 1; code <= CODES; code++) {
            struct job job = job_of(code, message, 0);
            for (; job.len <= 200; job.len++, compared++)
                if (!same(WAYS[i].name, WAYS[i].run, portable_c_digest, &job))
                    return 0;
            for (size_t k = 0; k < COUNT(LARGER) && LARGER[k] <= WAYS[i].most; k++, compared++) {
                job.len = LARGER[k];
                if (!same(WAYS[i].name, WAYS[i].run, portable_c_digest, &job))
                    return 0;
            }
        }
    printf("the same digests: %zu, of 0 to %d bytes, at codes 1 to %d, in one call and fed, and of C with SSE2 intrinsics\n", compared, LONGEST, CODES);
    return 1;
}

/* A sheet call against portable C over the records that it leaves. */
static int same_sheet(const char *call, struct luffa_sheet_answer answer, size_t n, struct job *job)
{
    struct job portable = job_of(job->code, job->sheet->records, SHEET_RECORD * n);

    portable_c_digest(&portable);
    memcpy(job->sheet->digest, job->out, sizeof job->sheet->digest);
    if (answer.number == LUFFA_DONE && answer.count == n && memcmp(job->out, portable.out, sizeof job->out) == 0)
        return 1;

    printf("DIFFERENT: code %zu, %s to %zu records\n", job->code, call, n);
    print_out("archive", (uint32_t)answer.number, job);
    print_out("portable C", 0, &portable);
    return 0;
}

/* A sheet that is built, changed at both ends and between and then at many places at once, appended to and dropped from; each save claims the
   digest before it. */
static int saved(size_t code, const uint8_t *message, size_t n, size_t *compared)
{
    static struct sheet sheet;
    struct job job = sheet_job(&sheet, code, message, n);
    struct sheet *s = job.sheet;
    const uint8_t *record = message + SHEET_RECORD * SHEET_MOST;
    const size_t places[] = {n - 1, n / 2, 0};
    size_t many[LUFFA_CHANGES_MOST], count = spread(many, COUNT(many), n);
    struct luffa_sheet_answer answer =
        luffa_sheet_build(code, s->records, sizeof s->records, n, s->marks, MARKS_MOST, job.out, sizeof job.out);

    if (!same_sheet("build", answer, n, &job))
        return 0;
    for (size_t i = 0; n > 0 && i < COUNT(places); i++, record += SHEET_RECORD) {
        answer = luffa_sheet_change(code, s->records, sizeof s->records, n, s->marks, MARKS_MOST, places[i], record, SHEET_RECORD, s->digest,
                                    DIGEST_BYTES[code], job.out, sizeof job.out);
        if (!same_sheet("change", answer, n, &job))
            return 0;
    }
    answer = luffa_sheet_batch(code, s->records, sizeof s->records, n, s->marks, MARKS_MOST, many, count, record, SHEET_RECORD * count, s->digest,
                               DIGEST_BYTES[code], job.out, sizeof job.out);
    if (!same_sheet("batch", answer, n, &job))
        return 0;
    record += SHEET_RECORD * count;
    if (n < SHEET_MOST) {
        answer = luffa_sheet_append(code, s->records, sizeof s->records, n, s->marks, MARKS_MOST, record, SHEET_RECORD, s->digest,
                                    DIGEST_BYTES[code], job.out, sizeof job.out);
        if (!same_sheet("append", answer, ++n, &job))
            return 0;
    }
    for (; n > 0 && n % 8 != 7; n--) {
        answer = luffa_sheet_drop(code, s->records, sizeof s->records, n, s->marks, MARKS_MOST, s->digest, DIGEST_BYTES[code], job.out,
                                  sizeof job.out);
        if (!same_sheet("drop", answer, n - 1, &job))
            return 0;
    }
    ++*compared;
    return 1;
}

int each_sheet(const char *what, sheet_check *right, size_t least, const uint8_t *message)
{
    static const size_t LARGER[] = {100, 1021, 1022, 1023, SHEET_MOST};
    size_t compared = 0;

    for (size_t code = 1; code <= CODES; code++) {
        for (size_t n = least; n <= 20; n++)
            if (!right(code, message, n, &compared))
                return 0;
        for (size_t i = 0; i < COUNT(LARGER); i++)
            if (!right(code, message, LARGER[i], &compared))
                return 0;
    }
    printf("%s: %zu times, of %zu to %d records\n", what, compared, least, SHEET_MOST);
    return 1;
}

static int check_sheets(const uint8_t *message) { return each_sheet("the same digests after sheet calls", saved, 0, message); }

/* -- The timing -- */

/* The one-call digest against portable C, which has the step constants stored, and against C with SSE2 intrinsics, which runs their generator as
   the archive does. Bars stand at the longest message only: there the rounds are nearly all of the work. */
static void digests(const uint8_t *message)
{
    static const struct length LENGTHS[] = {{64, 16, 4000}, {4096, 1, 4000}, {LONGEST, 1, 100}};
    /* 0.72, 0.58 and 0.55 where the archive had them stored too, and 1.15 times that without. */
    static const double BAR[CODES + 1] = {0, 0.83, 0.83, 0.67, 0.63}, BAR_SSE2 = 1.20;
    enum { ARCHIVE, PORTABLE, SSE2 };
    static work *const RUNS[] = {archive_digest, portable_c_digest, sse2_c_digest};

    printf("\nOne-call digest, cycles (rdtsc) per byte, best timing of each, taken in turns\n\n");
    printf("code    bytes   archive  portable C   ratio  SSE2 C   ratio   bars at 1 MiB\n");
    for (size_t code = 1; code <= CODES; code++)
        for (size_t i = 0; i < COUNT(LENGTHS); i++) {
            struct job job = job_of(code, message, LENGTHS[i].len);
            double best[COUNT(RUNS)];
            race(RUNS, COUNT(RUNS), &job, &LENGTHS[i], best);
            double ratio = best[ARCHIVE] / best[PORTABLE], to_sse2 = best[ARCHIVE] / best[SSE2];
            printf("%4zu %8zu %9.2f %11.2f %7.3f %7.2f %7.3f", code, job.len, best[ARCHIVE], best[PORTABLE], ratio, best[SSE2], to_sse2);
            if (job.len == LONGEST)
                printf("   at most %.2f: %s; %.2f: %s", BAR[code], verdict(ratio, BAR[code]), BAR_SSE2, verdict(to_sse2, BAR_SSE2));
            printf("\n");
            fflush(stdout);
        }
}

/* The longest message fed, against its one-call digest. The absorbing of the blocks cannot be called from C: the stand-in is one feed of
   them all, which reads and writes a record besides. */
static void feeding(const uint8_t *message)
{
    static const struct length LENGTH = {LONGEST, 1, 100};
    static const double BAR_PIECES = 1.05, BAR_DIGEST = 1.03;
    enum { DIGEST, PIECES, ONE_PIECE, FEED };
    static work *const RUNS[] = {archive_digest, archive_64_kib_pieces, archive_one_piece, archive_feed};

    printf("\n1 MiB fed, cycles per byte, best timing of each, taken in turns\n\n");
    printf("code   digest   64 KiB pieces   one piece   feed alone   pieces / digest   digest / feed alone\n");
    printf("%64s at most %.2f %8s at most %.2f\n", "", BAR_PIECES, "", BAR_DIGEST);
    for (size_t code = 1; code <= CODES; code++) {
        struct job job = job_of(code, message, LENGTH.len);
        double best[COUNT(RUNS)];
        race(RUNS, COUNT(RUNS), &job, &LENGTH, best);
        double pieces = best[PIECES] / best[DIGEST], digest = best[DIGEST] / best[FEED];
        printf("%4zu %8.2f %15.2f %11.2f %12.2f", code, best[DIGEST], best[PIECES], best[ONE_PIECE], best[FEED]);
        printf("%10.3f %-7s %13.3f %s\n", pieces, verdict(pieces, BAR_PIECES), digest, verdict(digest, BAR_DIGEST));
        fflush(stdout);
    }
}

/* Pieces that complete no block, so that there is no round and the record or struct is nearly all of the work. The job is as long as there are
   pieces, so the cycles per byte are those per call; the record's copying is in it, spread over the calls. */
static void short_pieces(const uint8_t *message)
{
    static const size_t SIZES[] = {0, 1, 5, 31};
    static const struct length LENGTH = {0, 200, 400};
    static work *const RUNS[] = {archive_short_pieces, archive_hash_short_pieces};

    printf("\nOne feed that completes no block, cycles per call, best timing of each, taken in turns\n\n");
    printf("code   bytes   luffa_feed   luffa_hash_feed\n");
    for (size_t code = 1; code <= CODES; code++)
        for (size_t i = 0; i < COUNT(SIZES); i++) {
            struct job job = job_of(code, message, short_pieces_of(SIZES[i]));
            double best[COUNT(RUNS)];
            job.piece = SIZES[i];
            race(RUNS, COUNT(RUNS), &job, &LENGTH, best);
            printf("%4zu %7zu %12.1f %17.1f\n", code, job.piece, best[0], best[1]);
            fflush(stdout);
        }
}

void race_sheets(const uint8_t *message, const struct raced *calls, size_t count, unsigned timings)
{
    const struct length length = {SHEET_RECORD * SHEET_MOST, 1, timings};
    work *runs[RACED_MOST];

    for (size_t k = 0; k < count; k++)
        runs[k] = calls[k].run;
    printf("code   call                   cycles     ratio\n");
    for (size_t code = 1; code <= CODES; code++) {
        static struct sheet sheet;
        struct job job = sheet_job(&sheet, code, message, SHEET_MOST);
        double best[RACED_MOST];
        for (size_t k = 0; k < count; k++)
            if (runs[k](&job) != LUFFA_DONE) {
                printf("REFUSED: code %zu, %s\n", code, calls[k].name);
                exit(1);
            }
        race(runs, count, &job, &length, best);
        for (size_t k = 0; k < count; k++) {
            double ratio = best[k] / best[0];
            printf("%4zu   %-18s %10.0f %9.4f", code, calls[k].name, best[k] * (double)job.len, ratio);
            if (calls[k].most && (calls[k].code == 0 || calls[k].code == code))
                printf("   at most %s: %s", calls[k].most, verdict(ratio, calls[k].bar));
            printf("\n");
        }
        fflush(stdout);
    }
}

/* The calls on a full sheet, against the digest of its bytes. */
static void sheets(const uint8_t *message)
{
    static const struct raced CALLS[] = {{"digest", archive_digest, NULL, 0, 0},
                                         {"build", archive_build, "1.10", 1.10, 0},
                                         {"change at 1,023", archive_change_last, "1/80", 1.0 / 80, LUFFA_512},
                                         {"change at 512", archive_change_middle, NULL, 0, 0},
                                         {"change at 0", archive_change_first, NULL, 0, 0},
                                         {"append at 1,023", archive_append, NULL, 0, 0},
                                         {"drop at 1,024", archive_drop, NULL, 0, 0}};

    printf("\nSheet of 1,024 records, cycles per call and their ratio to the digest of its bytes, best timing of each, taken in turns\n\n");
    race_sheets(message, CALLS, COUNT(CALLS), 1000);
}

int main(int argc, char **argv)
{
    static uint8_t message[LONGEST];
    int only_check = argc == 2 && strcmp(argv[1], "--check") == 0;

    if (argc > 1 && !only_check) {
        fprintf(stderr, "usage: bench [--check]\n");
        return 2;
    }
    fill(message, LONGEST);

    if (!check(message) || !check_backs(message) || !check_columns(message) || !check_bits(message) || !check_outputs(message) ||
        !check_sheets(message) || !check_mends(message) || !check_close_ups(message) || !check_owns(message) || !check_plans() || !check_starts())
        return 1;
    if (!only_check) {
        digests(message);
        feeding(message);
        short_pieces(message);
        backs(message);
        columns(message);
        bits(message);
        outputs(message);
        sheets(message);
        mends(message);
        changes(message);
        close_ups(message);
        owns(message);
        plans();
        starts();
    }
    return stacks(message) ? 0 : 1;
}
