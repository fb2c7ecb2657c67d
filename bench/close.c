/* Closing up struck records: what it leaves, and what it costs beside a change at the first of them. */
#include "close.h"
#include "bench.h"

#include <stdio.h>

/* The records that are left, their marks and digest as a build has them, zeros where the others were, and where each stood. */
static int closed(struct job *job, size_t among, size_t step)
{
    static struct sheet left;
    const struct sheet *s = job->sheet;
    size_t n = 0;
    int right = 1;

    memset(&left, 0, sizeof left);
    struct luffa_sheet_answer answer = close_up_of(job);
    for (size_t place = 0; place < s->n; place++) {
        if (place < among && place % step == 0)
            continue;
        memcpy(left.records + SHEET_RECORD * n, job->message + SHEET_RECORD * place, SHEET_RECORD);
        right &= old_places[n++] == place;
    }
    luffa_sheet_build(job->code, left.records, sizeof left.records, n, left.marks, MARKS_MOST, left.digest, sizeof left.digest);
    if (right && answer.number == LUFFA_DONE && answer.count == n && memcmp(s->records, left.records, SHEET_RECORD * s->n) == 0 &&
        memcmp(s->marks, left.marks, 4 * LUFFA_MARKS_FOR(s->n)) == 0 && memcmp(job->out, left.digest, DIGEST_BYTES[job->code]) == 0)
        return 1;
    printf("DIFFERENT: code %zu, close up of %zu records, struck every %zu. of the first %zu: answers %u, %u left\n", job->code, s->n, step, among,
           (unsigned)answer.number, (unsigned)answer.count);
    return 0;
}

/* No record struck, every second of the first half, every third, and all. */
static int closed_all_ways(size_t code, const uint8_t *message, size_t n, size_t *compared)
{
    static struct sheet sheet;
    const size_t ways[][2] = {{0, 1}, {n / 2, 2}, {n, 3}, {n, 1}};

    for (size_t i = 0; i < COUNT(ways); i++) {
        struct job job = sheet_job(&sheet, code, strike(message, n, ways[i][0], ways[i][1]), n);
        if (!closed(&job, ways[i][0], ways[i][1]))
            return 0;
        ++*compared;
    }
    return 1;
}

int check_close_ups(const uint8_t *message)
{
    return each_sheet("the records that aren't struck, as build has them, after a close up", closed_all_ways, 0, message);
}

/* By rounds the close up is less than the change, as there are fewer records to work through; the bar leaves room for the moving of them. */
void close_ups(const uint8_t *message)
{
    static const struct raced CALLS[] = {{"change at 0", archive_change_first, NULL, 0, 0}, {"close up", archive_close_up, "1.15", 1.15, LUFFA_512}};

    printf("\nClose up of 1,024 records, every second of the first half struck, cycles per call and their ratio to a change at the first struck place,"
           " best timing of each, taken in turns\n\n");
    race_sheets(strike(message, SHEET_MOST, SHEET_MOST / 2, 2), CALLS, COUNT(CALLS), 1000);
}
