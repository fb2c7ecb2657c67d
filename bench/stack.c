/* The stack of each call. */
#include "back.h"
#include "batch.h"
#include "bench.h"
#include "close.h"
#include "columns.h"
#include "mend.h"
#include "output.h"
#include "own.h"
#include "wells.h"

#include <stdio.h>
#include <stdlib.h>
#include <string.h>
#include <ucontext.h>

/* The calls on what sheets mean have a bar of their own: they keep what they have seen of a whole sheet. */
enum { STACK_BYTES = 1 << 18, STACK_BAR = 4096, PLAN_STACK_BAR = 160 << 10 };

/* The stack to paint, and what to run on it: makecontext hands over no pointers. */
static _Alignas(64) uint8_t stack[STACK_BYTES];
static struct {
    work *run;
    struct job job;
    uint32_t answer;
} there;

static void run_there(void) { there.answer = there.run(&there.job); }

static uint32_t nothing(struct job *job)
{
    (void)job;
    return LUFFA_DONE;
}

/* Does a copy of the job on the painted stack. Gives the bytes from its upper end down to the lowest that isn't paint any more. */
static size_t touched(work *run, const struct job *job, uint8_t paint)
{
    ucontext_t here, other;
    size_t left = 0;

    memset(stack, paint, sizeof stack);
    there.run = run;
    there.job = *job;
    if (getcontext(&other) != 0) {
        perror("getcontext");
        exit(1);
    }
    other.uc_stack.ss_sp = stack;
    other.uc_stack.ss_size = sizeof stack;
    other.uc_link = &here;
    makecontext(&other, run_there, 0);
    if (swapcontext(&here, &other) != 0) {
        perror("swapcontext");
        exit(1);
    }
    if (there.answer != LUFFA_DONE) {
        printf("REFUSED: code %zu, %zu bytes, answer %u\n", job->code, job->len, (unsigned)there.answer);
        exit(1);
    }
    while (left < sizeof stack && stack[left] == paint)
        left++;
    return sizeof stack - left;
}

/* A written byte can be like one paint, but not like both. */
static size_t most_touched(work *run, const struct job *job)
{
    size_t a = touched(run, job, FILL), b = touched(run, job, (uint8_t)~FILL);
    return a > b ? a : b;
}

/* The stack of a call from its return address down. A call that does nothing shows what is not the call's own; it has a return address
   too. */
static size_t own_stack(work *run, const struct job *job) { return most_touched(run, job) - most_touched(nothing, job) + sizeof(void *); }

static int stack_line(const char *name, size_t most, size_t bar)
{
    printf("%-26s %6zu   at most %zu: %s\n", name, most, bar, verdict((double)most, (double)bar));
    return most <= bar;
}

/* The most stack of each call over codes, lengths and bytes held in the record; of the sheet calls, over codes and numbers of records, of which
   every third is struck. A record to finish has odd bits, one to feed can't, and one to take a block back from is of whole blocks. Longer output is
   of all words. Wells are searched for from an injector and from a producer. */
int stacks(const uint8_t *message)
{
    enum { ENDED = 1, WHOLE };
    static const struct {
        const char *name;
        work *run;
        int of;
    } CALLS[] = {
        {"luffa_digest", archive_digest, 0},
        {"luffa_digest_bits", archive_digest_bits, 0},
        {"luffa_output", archive_output, 0},
        {"luffa_output_bits", archive_output_bits, 0},
        {"luffa_start", archive_start, 0},
        {"luffa_feed", archive_feed, 0},
        {"luffa_feed_bits", archive_feed_bits, 0},
        {"luffa_back", archive_back, WHOLE},
        {"luffa_finish", archive_finish, ENDED},
        {"luffa_finish_output", archive_finish_output, ENDED},
        {"luffa_hash_start", archive_hash_start, 0},
        {"luffa_hash_feed", archive_hash_feed, 0},
        {"luffa_hash_feed_bits", archive_hash_feed_bits, 0},
        {"luffa_hash_finish", archive_hash_finish, ENDED},
        {"luffa_hash_finish_output", archive_hash_finish_output, ENDED},
        {"luffa_columns_from_words", archive_columns_from_words, 0},
        {"luffa_words_from_columns", archive_words_from_columns, 0},
        {"luffa_columns_from_message", archive_columns_from_message, 0},
        {"luffa_columns_inject", archive_columns_inject, 0},
    }, SHEET_CALLS[] = {
        {"luffa_sheet_build", archive_build, 0},
        {"luffa_sheet_change", archive_change_middle, 0},
        {"luffa_sheet_append", archive_append, 0},
        {"luffa_sheet_drop", archive_drop, 0},
        {"luffa_sheet_mend", archive_mend_wrong, 0},
        {"luffa_sheet_batch", archive_batch_64, 0},
        {"luffa_sheet_close_up", archive_close_up, 0},
        {"luffa_sheet_change_own", both_changes_own, 0},
        {"luffa_sheet_append_own", both_appends_own, 0},
        {"luffa_sheet_drop_own", both_drops_own, 0},
    };
    static const size_t LENGTHS[] = {0, 1, 31, 32, 33, 63, 64, 65, 200, 4096, 65537}, HELD[] = {0, 1, 16, 31, 32};
    static const size_t RECORDS[] = {1, 2, 3, 4, 5, 9, 1023, SHEET_MOST};
    static struct sheet sheet;
    static struct batch batch;
    int ok = 1;

    printf("\nStack, bytes: the most that a call has written to, over codes 1 to %d, %zu lengths and %zu records, or %zu sheets\n\n", CODES,
           COUNT(LENGTHS), COUNT(HELD), COUNT(RECORDS));
    for (size_t i = 0; i < COUNT(CALLS); i++) {
        size_t most = 0;
        for (size_t code = 1; code <= CODES; code++)
            for (size_t k = 0; k < COUNT(HELD); k++)
                for (size_t n = 0; n < COUNT(LENGTHS); n++) {
                    struct job job = job_of(code, message, HELD[k]);
                    archive_feed(&job);
                    archive_hash_feed(&job);
                    job.len = LENGTHS[n];
                    /* Without a byte there are none. */
                    job.odd = job.len > 0 ? 3 : 0;
                    job.words = LUFFA_WORDS_MOST;
                    if (CALLS[i].of == ENDED) {
                        archive_feed_bits(&job);
                        archive_hash_feed_bits(&job);
                    }
                    if (CALLS[i].of == WHOLE)
                        luffa_feed(job.record, sizeof job.record, message, BLOCK - HELD[k] % BLOCK);
                    size_t own = own_stack(CALLS[i].run, &job);
                    most = own > most ? own : most;
                }
        ok &= stack_line(CALLS[i].name, most, STACK_BAR);
    }
    for (size_t i = 0; i < COUNT(SHEET_CALLS); i++) {
        size_t most = 0;
        for (size_t code = 1; code <= CODES; code++)
            for (size_t n = 0; n < COUNT(RECORDS); n++) {
                struct job job = sheet_job(&sheet, code, strike(message, RECORDS[n], RECORDS[n], 3), RECORDS[n]);
                size_t own = own_stack(SHEET_CALLS[i].run, &job);
                most = own > most ? own : most;
            }
        ok &= stack_line(SHEET_CALLS[i].name, most, STACK_BAR);
    }
    for (size_t i = 0; i < PLANS_COUNT; i++) {
        size_t most = 0;
        for (size_t k = 0; k < PLANS[i].count; k++) {
            struct job job = batch_job(&batch, PLANS[i].sizes[k].sheets, PLANS[i].sizes[k].n);
            for (batch.start = 0; batch.start < 2 && batch.start < batch.n; batch.start++) {
                size_t own = own_stack(PLANS[i].run, &job);
                most = own > most ? own : most;
            }
        }
        ok &= stack_line(PLANS[i].call, most, PLAN_STACK_BAR);
    }
    return ok;
}
