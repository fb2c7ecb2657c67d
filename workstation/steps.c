/* The functions of steps.h. */
#include "steps.h"
#include "well.h"
#include <string.h>

static void add(struct steps *steps, enum step_kind kind, size_t place, const uint8_t *record)
{
    struct step *step = &steps->step[steps->n++];

    memset(step, 0, sizeof *step);
    step->kind = (uint8_t)kind;
    step->place = place;
    if (record)
        memcpy(step->record, record, RECORD);
}

void steps_between(struct steps *steps, const struct list *from, const struct list *to)
{
    steps->n = 0;
    for (size_t i = 0; i < from->n && i < to->n; i++)
        if (!same_record(record_at(from, i), record_at(to, i)))
            add(steps, CHANGED, i, record_at(to, i));
    for (size_t i = from->n; i < to->n; i++)
        add(steps, APPENDED, i, record_at(to, i));
    for (size_t i = from->n; i > to->n; i--)
        add(steps, DROPPED, i - 1, record_at(from, i - 1));
}

static size_t standing(const struct list *list)
{
    size_t left = 0;

    for (size_t i = 0; i < list->n; i++)
        left += !struck(record_at(list, i));
    return left;
}

void steps_close_up(struct steps *steps, const struct list *from)
{
    steps->n = 0;
    if (standing(from) < from->n)
        add(steps, CLOSED_UP, standing(from), NULL);
}

/* A batch of the changes from step `first` on, as many as the library takes in one. Gives the steps that it made. */
static size_t batch(struct sheet *sheet, const struct steps *steps, size_t first, const uint8_t *claim,
                    size_t claim_len, struct luffa_sheet_answer *answer)
{
    size_t places[LUFFA_CHANGES_MOST], n = 0;
    uint8_t records[LUFFA_CHANGES_MOST * RECORD];

    for (; n < LUFFA_CHANGES_MOST && first + n < steps->n && steps->step[first + n].kind == CHANGED; n++) {
        places[n] = steps->step[first + n].place;
        memcpy(records + RECORD * n, steps->step[first + n].record, RECORD);
    }
    *answer =
        luffa_sheet_batch(sheet->code, sheet->list.records, sizeof sheet->list.records, sheet->list.n, sheet->marks,
                          MARKS_MOST, places, n, records, RECORD * n, claim, claim_len, sheet->digest, DIGEST_MOST);
    return n;
}

uint64_t steps_make(struct sheet *sheet, const struct steps *steps, const uint8_t *claim, size_t claim_len)
{
    static uint16_t places[LUFFA_SHEET_MOST];
    struct luffa_sheet_answer answer;
    uint8_t before[DIGEST_MOST];
    size_t i = 0;

    do {
        const struct step *step = &steps->step[i];
        struct list *list = &sheet->list;

        if (steps->n == 0 || step->kind == CHANGED) {
            i += batch(sheet, steps, i, claim, claim_len, &answer);
        } else if (step->kind == APPENDED) {
            answer = luffa_sheet_append(sheet->code, list->records, sizeof list->records, list->n, sheet->marks,
                                        MARKS_MOST, step->record, RECORD, claim, claim_len, sheet->digest, DIGEST_MOST);
            i++;
        } else if (step->kind == DROPPED) {
            answer = luffa_sheet_drop(sheet->code, list->records, sizeof list->records, list->n, sheet->marks,
                                      MARKS_MOST, claim, claim_len, sheet->digest, DIGEST_MOST);
            i++;
        } else {
            answer = luffa_sheet_close_up(sheet->code, list->records, sizeof list->records, list->n, sheet->marks,
                                          MARKS_MOST, claim, claim_len, places, LUFFA_SHEET_MOST, sheet->digest,
                                          DIGEST_MOST);
            i++;
        }
        if (answer.number != LUFFA_DONE)
            return answer.number;
        list->n = answer.count;
        memcpy(before, sheet->digest, DIGEST_MOST);
        claim = before;
        claim_len = digest_bytes(sheet->code);
    } while (i < steps->n);
    return LUFFA_DONE;
}

int steps_fold(struct list *list, const struct steps *steps)
{
    for (size_t i = 0; i < steps->n; i++) {
        const struct step *step = &steps->step[i];

        if (step->kind == CHANGED && step->place < list->n) {
            memcpy(list->records + RECORD * step->place, step->record, RECORD);
        } else if (step->kind == APPENDED && step->place == list->n && list->n < LUFFA_SHEET_MOST) {
            memcpy(list->records + RECORD * list->n++, step->record, RECORD);
        } else if (step->kind == DROPPED && list->n > 0 && step->place == list->n - 1 &&
                   same_record(step->record, record_at(list, list->n - 1))) {
            memset(list->records + RECORD * --list->n, 0, RECORD);
        } else if (step->kind == CLOSED_UP && step->place == standing(list)) {
            size_t left = 0;
            for (size_t k = 0; k < list->n; k++)
                if (!struck(record_at(list, k)))
                    memmove(list->records + RECORD * left++, record_at(list, k), RECORD);
            memset(list->records + RECORD * left, 0, RECORD * (list->n - left));
            list->n = left;
        } else {
            return 0;
        }
    }
    return 1;
}
