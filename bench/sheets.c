/* Makes calls on one sheet in turn, for bench/mending, bench/where, bench/closing and bench/reaching to count what they take: `sheets CODE RECORDS
   CALL..`, where a call is `build`; `true`, a mend of marks that are true, or `wrong`, one of marks that are all wrong; `open`, which copies the
   marks and the digest of a build; `change` at the last place, `own`, the same with own marks, or `stale`, that is told the last group; `none`,
   `half` or `all`, which strikes no record, every second of the first half, or each, `lowest`, a change at the first place, or `close`, a close
   up; `wells`, which makes as many of them, `first` or `fourth`, by which this link of every producer names the first injector, `check` of their
   content, or `reach`, a search from the place that was named last, by its number alone, or from 0. */
#include "close.h"
#include "mend.h"
#include "own.h"
#include "wells.h"

#include <ctype.h>
#include <stdlib.h>

static uint32_t open_own(struct job *job)
{
    memcpy(job->sheet->digest, job->out, sizeof job->sheet->digest);
    memcpy(job->sheet->own, job->sheet->marks, sizeof job->sheet->own);
    return LUFFA_DONE;
}

/* The records are copied where none is struck too, so that all sheets take as much to make but for their zeros. */
static uint32_t struck(struct job *job, size_t among, size_t step)
{
    job->message = strike(job->message, job->sheet->n, among, step);
    memcpy(job->sheet->records, job->message, SHEET_RECORD * job->sheet->n);
    return LUFFA_DONE;
}

static uint32_t no_record_struck(struct job *job) { return struck(job, 0, 1); }
static uint32_t half_struck(struct job *job) { return struck(job, job->sheet->n / 2, 2); }
static uint32_t all_struck(struct job *job) { return struck(job, job->sheet->n, 1); }

static uint32_t open_wells(struct job *job)
{
    static struct batch batch;

    batch_job(&batch, 1, job->sheet->n);
    job->batch = &batch;
    return LUFFA_DONE;
}

static uint32_t link_by_first(struct job *job)
{
    link_first(job->batch->wells, job->batch->n, 0);
    return LUFFA_DONE;
}

static uint32_t link_by_fourth(struct job *job)
{
    link_first(job->batch->wells, job->batch->n, 3);
    return LUFFA_DONE;
}

int main(int argc, char **argv)
{
    static const struct {
        const char *name;
        work *run;
    } CALLS[] = {{"build", archive_build},        {"true", archive_mend_true}, {"wrong", archive_mend_wrong},    {"open", open_own},
                 {"change", archive_change_last}, {"own", archive_change_own}, {"stale", archive_stale_own},     {"none", no_record_struck},
                 {"half", half_struck},           {"all", all_struck},         {"lowest", archive_change_first}, {"close", archive_close_up_once},
                 {"wells", open_wells},           {"first", link_by_first},    {"fourth", link_by_fourth},       {"check", archive_plan_check},
                 {"reach", archive_plan_reach}};
    static uint8_t message[SHEET_RECORD * SHEET_MOST];
    static struct sheet sheet;

    sheet.n = argc > 2 ? strtoul(argv[2], NULL, 10) : SHEET_MOST + 1;
    if (sheet.n > SHEET_MOST)
        return 2;
    fill(message, SHEET_RECORD * sheet.n);
    memcpy(sheet.records, message, SHEET_RECORD * sheet.n);
    struct job job = job_of(strtoul(argv[1], NULL, 10), message, SHEET_RECORD * sheet.n);
    job.sheet = &sheet;
    for (int i = 3; i < argc; i++) {
        if (job.batch != NULL && isdigit((unsigned char)argv[i][0]))
            job.batch->start = strtoul(argv[i], NULL, 10);
        for (size_t k = 0; k < COUNT(CALLS); k++)
            if (strcmp(argv[i], CALLS[k].name) == 0 && CALLS[k].run(&job) != LUFFA_DONE)
                return 1;
    }
    return 0;
}
