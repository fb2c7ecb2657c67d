/* The functions of show.h. */
#define _POSIX_C_SOURCE 200809L
#include "show.h"
#include "changes.h"
#include "csv.h"
#include "say.h"
#include "store.h"
#include <inttypes.h>
#include <stdio.h>
#include <string.h>
#include <time.h>
#include <unistd.h>

static struct store store;
static struct sheet sheet;

static void print_head(FILE *to)
{
    fprintf(to, "%zu record%s, code %zu, %" PRIu64 " save%s\n", sheet.list.n, many(sheet.list.n), sheet.code,
            sheet.saves, many(sheet.saves));
}

/* The digest, and sound, or the fault. */
static void print_end(FILE *to)
{
    char words[WORDS_MOST];
    const char *fault = fault_words(words, &sheet.list);

    print_digest(to, sheet.digest, digest_bytes(sheet.code));
    fprintf(to, "%s%s\n", fault ? "not sound: " : "sound", fault ? fault : "");
}

/* The columns after the rate; none where all are empty. */
static void print_rest(const struct well *well)
{
    char links[64] = "", note[TEXT_MOST(NOTE)];
    size_t len = 0;

    for (size_t k = 0; k < well->links; k++)
        len += (size_t)snprintf(links + len, sizeof links - len, "%s%u %u", k == 0 ? "" : ", ", well->link[k].injector,
                                well->link[k].share);
    text_from_bytes(note, well->note, well->note_len);
    if (well->note_len > 0)
        printf("  %-30s  %s", links, note);
    else if (len > 0)
        printf("  %s", links);
}

static void print_well(size_t place, const uint8_t *record)
{
    char words[WORDS_MOST];
    struct well well;

    well_read(&well, record);
    /* A record that the columns don't hold is told in words. */
    if (struck(record) || (well.kind != LUFFA_PRODUCER && well.kind != LUFFA_INJECTOR) || !links_fit(&well)) {
        printf("%5zu         %s\n", place, well_words(words, record, 1));
        return;
    }
    printf("%5zu  %5u  %s  %10u", place, well.number, well.kind == LUFFA_PRODUCER ? "producer" : "injector", well.rate);
    print_rest(&well);
    putchar('\n');
}

int show(const char *file, int as_csv)
{
    static uint8_t text[CSV_MOST];

    store_find(&store, file);
    store_read(&store, &sheet, NULL);
    if (as_csv) {
        /* The two streams may end in one place: the text comes first, whole. */
        fwrite(text, 1, csv_write(text, &sheet.list, ""), stdout);
        fflush(stdout);
        print_head(stderr);
        print_end(stderr);
        return printed(FAILED);
    }
    print_head(stdout);
    if (sheet.list.n > 0)
        printf("place   well  kind       rate, t/d  injectors and shares            note\n");
    for (size_t i = 0; i < sheet.list.n; i++)
        print_well(i, record_at(&sheet.list, i));
    print_end(stdout);
    return printed(FAILED);
}

/* Every sheet is told, sound or not, before the status says that one isn't. */
int check(const char *const *files, size_t n)
{
    char words[WORDS_MOST];
    int faulted = 0;

    for (size_t i = 0; i < n; i++) {
        const char *fault;

        store_find(&store, files[i]);
        store_read(&store, &sheet, NULL);
        fault = fault_words(words, &sheet.list);
        text_put(stdout, store.given);
        printf(": %s%s\n", fault ? "not sound: " : "sound", fault ? fault : "");
        faulted = faulted || fault;
        store_close(&store);
    }
    printed(FAILED);
    return faulted ? LUFFA_UNSOUND : LUFFA_DONE;
}

/* The wells that so many hops reach and one fewer doesn't. */
static void print_reached(size_t hops, const uint8_t *now, const uint8_t *before)
{
    const char *between = "  ";

    printf("%zu hop%s%s", hops, many(hops), hops == 1 ? " " : "");
    for (size_t i = 0; i < sheet.list.n; i++)
        if (now[i] && !before[i]) {
            struct well well;
            well_read(&well, record_at(&sheet.list, i));
            printf("%s%s %u", between, well.kind == LUFFA_PRODUCER ? "producer" : "injector", well.number);
            between = ", ";
        }
    printf("%s\n", *between == ' ' ? "  none" : "");
}

int reach(const char *file, size_t well, size_t hops)
{
    uint8_t reached[LUFFA_SHEET_MOST], before[LUFFA_SHEET_MOST] = {0};
    char words[WORDS_MOST];
    uint32_t answer;

    store_find(&store, file);
    store_read(&store, &sheet, NULL);
    /* The answer to the whole question comes first, so that a refused one prints nothing. */
    answer = luffa_plan_reach(sheet.list.records, sizeof sheet.list.records, sheet.list.n, well, hops, reached,
                              sizeof reached);
    if (answer == LUFFA_UNSOUND)
        stop((int)answer, "Refused, answer %d. The sheet isn't sound: %s.", (int)answer,
             fault_words(words, &sheet.list));
    if (answer != LUFFA_DONE)
        stop((int)answer, "Refused, answer %d. %s", (int)answer, sentence(answer));
    for (size_t i = 0; i <= hops; i++) {
        luffa_plan_reach(sheet.list.records, sizeof sheet.list.records, sheet.list.n, well, i, reached, sizeof reached);
        print_reached(i, reached, before);
        memcpy(before, reached, sizeof before);
    }
    return printed(FAILED);
}

int mend(const char *file)
{
    struct luffa_mend_answer mended;
    size_t marks;

    closing = " Nothing was mended.";
    store_find(&store, file);
    /* A sheet that its saves don't bear out isn't written. */
    store_open(&store, &sheet, &mended);
    marks = sheet.list.n / 4 + 1;
    if (mended.wrong == 0) {
        store_leave(&store);
        printf("no mark was wrong, of %zu\n", marks);
        return printed(FAILED);
    }
    store_mend(&store, &sheet);
    printf("%" PRIu64 " of %zu mark%s %s wrong, the first was mark %" PRIu64 ": mended\n", mended.wrong, marks,
           many(marks), mended.wrong == 1 ? "was" : "were", mended.first);
    return printed(UNSURE);
}

static void print_time(int64_t when)
{
    time_t seconds = (time_t)when;
    struct tm parts;
    char text[32] = "?";

    if (localtime_r(&seconds, &parts))
        strftime(text, sizeof text, "%Y-%m-%d %H:%M", &parts);
    fputs(text, stdout);
}

static size_t trimmed(const uint8_t *bytes, size_t n)
{
    while (n > 0 && bytes[n - 1] == 0)
        n--;
    return n;
}

/* It needs no lock: the saves that the sheet counts are there for good. */
int print_log(const char *file)
{
    static struct entry entry;
    static struct list before, after;
    char who[TEXT_MOST(WHO)];

    store_find(&store, file);
    store_read(&store, &sheet, NULL);
    store_saves(&store, &sheet);
    for (uint64_t i = 1; store_next(&store, &entry); i++) {
        if (!steps_fold(&after, &entry.steps))
            stop(DAMAGED, "%s is damaged: save %" PRIu64 " can't be made.", store.log_name, i);
        text_from_bytes(who, entry.who, trimmed(entry.who, WHO));
        printf("save %" PRIu64 ", ", i);
        print_time(entry.when);
        printf(", %s%s\n", who, entry.steps.step[0].kind == CLOSED_UP ? ", closed up" : "");
        changes_print(stdout, &before, &after);
        before = after;
    }
    return printed(FAILED);
}

/* Reading has compared the marks with those of a build already. Here every save is made again from the empty sheet on,
   by the library, with the digest that it carried, and on a plain list, and must lead to the sheet that is held. */
int verify(const char *file)
{
    static struct sheet again;
    static struct list plain;
    static struct entry entry;
    size_t marks;

    store_find(&store, file);
    store_look(&store, &sheet);
    store_saves(&store, &sheet);
    again.code = sheet.code;
    sheet_build(&again);
    for (uint64_t i = 1; store_next(&store, &entry); i++)
        if (!steps_fold(&plain, &entry.steps) ||
            steps_make(&again, &entry.steps, entry.before, digest_bytes(again.code)) != LUFFA_DONE ||
            !same_list(&plain, &again.list) || memcmp(again.digest, entry.after, DIGEST_MOST) != 0)
            stop(DAMAGED, "%s is damaged: save %" PRIu64 " doesn't follow from the one before.", store.log_name, i);
    if (!same_list(&again.list, &sheet.list) || memcmp(again.marks, sheet.marks, sizeof sheet.marks) != 0)
        stop(DAMAGED, "%s doesn't lead to %s.", store.log_name, store.name);
    marks = sheet.list.n / 4 + 1;
    printf("true: %zu record%s, %zu mark%s, %" PRIu64 " save%s\n", sheet.list.n, many(sheet.list.n), marks, many(marks),
           sheet.saves, many(sheet.saves));
    return printed(FAILED);
}
