/*
 * The check of the trial: a plain list is what a sheet should be. It shares nothing with the workstation
 * but the archive, and reads the two files by offsets of its own. Of a database the rows come as such files.
 *
 * The sheet's file says how many saves were accepted and how many bytes of the log are theirs, and the log
 * which they are: its first entries (log.h says why); a database has no other entries. That is believed only
 * as far as the rivals' own notes bear it out: what a rival was told is accepted must be there, what it was
 * told is refused or lost must not, and of what was killed only the log knows. Of what wasn't known at first
 * the log decides too, and who asked by its id was told the same.
 */
#include "rivals.h"
#include <stdarg.h>
#include <stdio.h>
#include <stdlib.h>
#include <string.h>
#include <time.h>

enum { HEAD = 136, SEALED = 104, ENTRY_HEAD = 104, STEP = 48, BATCH_MOST = LUFFA_CHANGES_MOST, KINDS_FROM = 60 };
enum { ID = 16, ROW = ID + 8 + LUFFA_256_BYTES, ENTRY_MOST = ENTRY_HEAD + STEP * 4096 + DIGEST_MOST };

static struct list list;
static size_t smallest = LUFFA_SHEET_MOST, largest;

/* The name that the seals of a database cover, or null. */
static const char *rows;

/* The accepted saves in their order: the attempt of each, the time at which it was certainly accepted, and the digests
   before the first and after each. */
static const struct attempt **order;
static int64_t *certain;
static uint8_t (*digests)[DIGEST_MOST];
static size_t accepted;

/* The two files, what a database has besides, and for each attempt how often it was accepted. All this is kept until
   the program ends. */
static uint8_t *sheet, *save_log, *ids;
static size_t sheet_len, log_len, ids_len;
static char *seen[RIVALS_MOST + 1];

/* How many attempts ended in each way; killed ones, and those that weren't known, are counted by whether they had
   saved; of those that were done or lost, some had asked by their id, and some were lost by no doom of their own. */
static long done, nothing, stale_group, stale_tail, absent, killed_saved, killed_before, unknown_saved, unknown_before;
static long done_asked, lost, lost_asked, lost_by_others;

int wrong(const char *words, ...)
{
    va_list arguments;

    printf("trial: VIOLATED: ");
    va_start(arguments, words);
    vprintf(words, arguments);
    va_end(arguments);
    putchar('\n');
    return 1;
}

static void *enough(void *memory)
{
    if (!memory)
        exit(2);
    return memory;
}

static int same(const uint8_t *one, const uint8_t *other)
{
    return memcmp(one, other, DIGEST_MOST) == 0;
}

/* What a step of the log does to the list. Gives 0 where it can't be done. */
static int apply(const uint8_t *step)
{
    size_t place = number(step + 4, 4);
    const uint8_t *record = step + 8;

    if (number(step + 1, 3) != 0)
        return 0;
    if (step[0] == CHANGED && place < list.n)
        memcpy(list.records[place], record, RECORD);
    else if (step[0] == APPENDED && place == list.n && place < LUFFA_SHEET_MOST)
        memcpy(list.records[list.n++], record, RECORD);
    else if (step[0] == DROPPED && place + 1 == list.n && memcmp(list.records[place], record, RECORD) == 0)
        list.n--;
    else
        return step[0] == CLOSED_UP && list_close_up(&list) > 0 && place == list.n;
    return 1;
}

/* Whether a seal is that of some bytes, and of what a row has behind them in a database. */
static int sealed(const uint8_t *seal, const uint8_t *bytes, size_t len, const uint8_t *row, size_t row_len)
{
    static uint8_t all[ENTRY_MOST + ROW + 256];
    uint8_t true_seal[LUFFA_256_BYTES];
    size_t name = rows ? strlen(rows) : 0;

    if (len + row_len + name > sizeof all)
        return 0;
    memcpy(all, bytes, len);
    if (row)
        memcpy(all + len, row, row_len);
    if (rows)
        memcpy(all + len + row_len, rows, name);
    luffa_digest(LUFFA_256, all, len + row_len + name, true_seal, sizeof true_seal);
    return memcmp(true_seal, seal, sizeof true_seal) == 0;
}

/* The final sheet: the list's records, its digest, and the marks that a build gives. */
static int check_sheet(size_t code)
{
    static uint32_t marks[LUFFA_MARKS_FOR(LUFFA_SHEET_MOST)];
    uint8_t built[DIGEST_MOST];
    const uint8_t *at = sheet + HEAD;

    if (memcmp(sheet, "LufSheet", 8) != 0 || number(sheet + 8, 4) != 2 ||
        !sealed(sheet + SEALED, sheet, SEALED, NULL, 0))
        return wrong("the sheet isn't of this form, or its seal isn't true");
    if (number(sheet + 12, 4) != code || number(sheet + 16, 4) != list.n ||
        sheet_len != HEAD + RECORD * list.n + 4 * LUFFA_MARKS_FOR(list.n))
        return wrong("the sheet has another code, count or length than the accepted saves give");
    if (memcmp(at, list.records, RECORD * list.n) != 0)
        return wrong("the records aren't those that the accepted saves give");
    if (!same(sheet + 40, digests[accepted]))
        return wrong("the digest isn't that of the records");
    luffa_sheet_build(code, list.records[0], sizeof list.records, list.n, marks, sizeof marks / 4, built, sizeof built);
    at += RECORD * list.n;
    for (size_t i = 0; i < LUFFA_MARKS_FOR(list.n); i++, at += 4)
        if (number(at, 4) != marks[i])
            return wrong("mark %zu isn't that of the records", i / LUFFA_MARK_WORDS);
    return 0;
}

/* Whether the sheet could have had this digest between two times, or, with `other`, another than this. It had those
   after every save that was certainly accepted before, up to those that had certainly been begun. */
static int could_have(const uint8_t *digest, int other, int64_t from, int64_t to)
{
    size_t low = 0, high = 0;

    for (size_t i = 0; i < accepted; i++) {
        if (certain[i] < from)
            low = i + 1;
        if (order[i]->saving < to)
            high = i + 1;
    }
    for (size_t i = low; i <= high; i++)
        if (same(digests[i], digest) != other)
            return 1;
    return 0;
}

/* A save was accepted when its saver had ended, and before the next one was. A server goes on with what a killed saver
   has sent, and with what one that lost it has sent: then only the next one bounds it. */
static void bound(void)
{
    for (size_t i = accepted; i-- > 0;)
        certain[i] = rows && order[i]->end != LUFFA_DONE ? certain[i + 1] : order[i]->saved;
}

/* What the row of a save has besides its entry: the numbers have no gap, no id comes twice, and the seal is true. */
static int check_row(const char *who, const struct attempt *a, const uint8_t *entry, size_t len, size_t i)
{
    const uint8_t *row = ids + ROW * i;
    char id[2 * ID + 5] = "";

    if (number(row + ID, 8) != i + 1)
        return wrong("%s has number %llu, and is save %zu", who, (unsigned long long)number(row + ID, 8), i + 1);
    for (size_t before = 0; before < i; before++)
        if (memcmp(ids + ROW * before, row, ID) == 0)
            return wrong("%s has the id of save %zu", who, before + 1);
    if (!sealed(row + ID + 8, entry, len, row, ID + 8))
        return wrong("the seal of %s isn't true", who);
    for (size_t k = 0; k < ID; k++)
        sprintf(id + strlen(id), k == 4 || k == 6 || k == 8 || k == 10 ? "-%02x" : "%02x", row[k]);
    return a->id[0] && strcmp(a->id, id) != 0 ? wrong("%s was told another id than its save has", who) : 0;
}

/* The attempt that an entry names, which must not have been accepted before. Gives null where there is none. */
static const struct attempt *attempt_of(const char *who, const struct shared *shared, int rivals)
{
    int r;
    long k;

    if (sscanf(who, "r%d.%ld", &r, &k) != 2 || r < 0 || r > rivals || k < 0 || k >= shared->rivals[r].attempts)
        return wrong("a save is by \"%s\", whom the trial doesn't know", who), NULL;
    if (seen[r][k]++)
        return wrong("%s was accepted twice", who), NULL;
    return &shared->rivals[r].attempt[k];
}

/* Does to the list what the entry of an attempt says: its steps are as many of each kind as were asked for. */
static int make_steps(const char *who, const struct attempt *a, const uint8_t *entry, size_t n)
{
    size_t steps[STEP_KINDS] = {0};

    for (size_t i = 0; i < n; i++) {
        const uint8_t *step = entry + ENTRY_HEAD + STEP * i;
        if (!apply(step))
            return wrong("%s: step %zu of its save can't be done", who, i);
        steps[step[0]]++;
    }
    if (n == 0 || memcmp(steps, a->steps, sizeof steps) != 0)
        return wrong("%s asked for something else than was saved", who);
    return 0;
}

/* Folds the log's accepted saves over the list, and ties each to the one attempt that made it. */
static int fold(size_t code, const struct shared *shared, int rivals)
{
    size_t left = log_len, n;
    int64_t latest = 0;

    for (size_t i = 0; i < accepted; i++) {
        const uint8_t *entry = save_log + log_len - left;
        const struct attempt *a;
        char who[25] = "";

        n = left < ENTRY_HEAD ? 0 : number(entry + 32, 4);
        if (left < ENTRY_HEAD + STEP * n + DIGEST_MOST)
            return wrong("the log ends within save %zu of %zu", i, accepted);
        left -= ENTRY_HEAD + STEP * n + DIGEST_MOST;
        memcpy(who, entry, 24);
        a = attempt_of(who, shared, rivals);
        if (!a)
            return 1;
        if (a->end != LUFFA_DONE && a->end != KILLED && a->end != UNKNOWN)
            return wrong("%s ended with %d, and its save was accepted", who, a->end);
        if (!same(a->claim, digests[i]))
            return wrong("%s was accepted over a sheet that it had not opened", who);
        if (a->saved < latest)
            return wrong("%s had ended before a save began that was accepted earlier", who);
        latest = a->saving > latest ? a->saving : latest;
        if (number(entry + 24, 8) < (uint64_t)shared->began || number(entry + 24, 8) > (uint64_t)time(NULL))
            return wrong("%s was saved at a time that isn't the trial's", who);
        if (make_steps(who, a, entry, n))
            return 1;
        list_digest(&list, code, digests[i + 1]);
        if (!same(a->aim, digests[i + 1]))
            return wrong("%s asked for another list than was saved", who);
        if (!same(entry + 40, digests[i]) || !same(entry + ENTRY_HEAD + STEP * n, digests[i + 1]))
            return wrong("%s: the log has other digests than the list", who);
        if (!rows && number(entry + 36, 4) != 1 && (number(entry + 36, 4) != 0 || a->end != KILLED))
            return wrong("%s isn't marked as accepted", who);
        if (rows && check_row(who, a, entry, ENTRY_HEAD + STEP * n + DIGEST_MOST, i))
            return 1;
        if (a->end == LUFFA_DONE && !same(a->told, digests[i + 1]))
            return wrong("%s was told another digest than the list has", who);
        order[i] = a;
        smallest = list.n < smallest ? list.n : smallest;
        largest = list.n > largest ? list.n : largest;
    }
    bound();
    return left == 0 ? 0 : wrong("the log goes on after the saves that count");
}

/* An attempt against what the fold has seen. */
static int account(const struct attempt *a, int made, int r, long k)
{
    static const size_t none[STEP_KINDS];
    int asked = memcmp(a->steps, none, sizeof none) != 0, held = could_have(a->claim, 0, a->saving, a->saved);

    if (!could_have(a->claim, 0, a->opening, a->opened))
        return wrong("r%d.%ld opened a sheet that wasn't held then", r, k);
    switch (a->end) {
    case KILLED:
        *(made ? &killed_saved : &killed_before) += 1;
        return 0;
    case UNKNOWN:
        *(made ? &unknown_saved : &unknown_before) += 1;
        return made == (a->asked == ASKED_ACCEPTED)
                   ? 0
                   : wrong("r%d.%ld asked by its id, and was told the opposite of what is so", r, k);
    case LOST:
        lost++;
        lost_asked += a->asked == ASKED_MISSING;
        lost_by_others += !a->doomed;
        return 0;
    case LUFFA_DONE:
        done++;
        done_asked += a->asked == ASKED_ACCEPTED;
        return made ? 0 : wrong("r%d.%ld was told that it was accepted, and its save is missing", r, k);
    case NOTHING:
        nothing++;
        return !asked && a->kind != STRIKE && held && same(a->told, a->claim)
                   ? 0
                   : wrong("r%d.%ld was told that there is nothing to save, and there was", r, k);
    case LUFFA_WELL:
        absent++;
        return !asked && a->kind == STRIKE && held ? 0 : wrong("r%d.%ld struck a well that wasn't found", r, k);
    case LUFFA_STALE:
    case LUFFA_STALE_TAIL:
        *(a->end == LUFFA_STALE ? &stale_group : &stale_tail) += 1;
        if (!could_have(a->claim, 1, a->saving, a->saved))
            return wrong("r%d.%ld was turned away as stale, and the sheet was the one it had opened", r, k);
        return could_have(a->told, 0, a->saving, a->saved)
                   ? 0
                   : wrong("r%d.%ld was told the digest of a sheet that wasn't held then", r, k);
    default:
        return wrong("r%d.%ld ended with %d", r, k, a->end);
    }
}

static int account_all(const struct shared *shared, int rivals)
{
    for (int r = 0; r <= rivals; r++)
        for (long k = 0; k < shared->rivals[r].attempts; k++)
            if (account(&shared->rivals[r].attempt[k], seen[r][k], r, k))
                return 1;
    if (done + killed_saved + unknown_saved != (long)accepted)
        return wrong("%ld saves were told and %ld others were made, but %zu accepted", done,
                     killed_saved + unknown_saved, accepted);
    if (stale_group + stale_tail == 0)
        return wrong("nobody was turned away as stale");
    if (killed_saved + killed_before == 0)
        return wrong("nobody was killed");
    return 0;
}

/* What the accepted saves were. In a trial that isn't too short there is every kind among them. */
static int kinds(long wanted)
{
    size_t batches = 0, long_batches = 0, appends = 0, drops = 0, strikes = 0, close_ups = 0, mixed = 0,
           steps[STEP_KINDS] = {0};

    for (size_t i = 0; i < accepted; i++) {
        const struct attempt *a = order[i];
        for (int s = CHANGED; s < STEP_KINDS; s++)
            steps[s] += a->steps[s];
        strikes += a->kind == STRIKE;
        close_ups += a->kind == CLOSE_UP;
        batches += a->kind == SAVE && a->steps[CHANGED] > 1;
        long_batches += a->steps[CHANGED] > BATCH_MOST;
        appends += a->steps[APPENDED] > 0;
        drops += a->steps[DROPPED] > 0;
        mixed += a->steps[CHANGED] > 0 && a->steps[APPENDED] + a->steps[DROPPED] > 0;
    }
    if (wanted >= KINDS_FROM && (batches == 0 || appends == 0 || drops == 0 || strikes == 0 || close_ups == 0))
        return wrong("a kind of save is missing");
    printf("of these %zu changed several wells, %zu of them over %d; %zu appended and %zu dropped, %zu of them with "
           "changes; %zu struck, %zu closed up\n",
           batches, long_batches, BATCH_MOST, appends, drops, mixed, strikes, close_ups);
    printf("in all %zu changes, %zu appends, %zu drops; the sheet had %zu to %zu records\n", steps[CHANGED],
           steps[APPENDED], steps[DROPPED], smallest, largest);
    return 0;
}

/* What the server was put to. In a trial that isn't too short all of it came up. A save is lost by a doom of its own,
   by its connection that was terminated, or once each time that the server is killed. */
static int losses(const struct shared *shared, int rivals, long wanted)
{
    long ended = atomic_load(&shared->terminated), kills = atomic_load(&shared->server_kills);

    printf("lost %ld, with nothing saved: %ld had asked by their id, %ld were lost by no doom of their own\n", lost,
           lost_asked, lost_by_others);
    printf("not known at first %ld, of which %ld were accepted, as they were told when they asked\n",
           unknown_saved + unknown_before, unknown_saved);
    printf("connections terminated %ld, server killed %ld time%s, %ld openings refused meanwhile\n", ended, kills,
           kills == 1 ? "" : "s", atomic_load(&shared->refused));
    if (lost_by_others > ended + kills * rivals)
        return wrong("more saves were lost than connections");
    if (wanted >= KINDS_FROM && (kills == 0 || ended == 0))
        return wrong("the server was left in peace");
    if (wanted >= KINDS_FROM &&
        (lost == 0 || lost_asked == 0 || done_asked == 0 || unknown_saved + unknown_before == 0))
        return wrong("a way to lose a connection is missing");
    return 0;
}

/* Reads the files, and makes room for what is worked out. */
static int prepare(const struct store *store, const struct shared *shared, int rivals)
{
    rows = store->rows;
    sheet = whole(store->file, "", &sheet_len);
    save_log = whole(store->file, ".log", &log_len);
    ids = rows ? whole(store->file, ".ids", &ids_len) : NULL;
    if (!sheet || !save_log || sheet_len < HEAD || (rows && !ids))
        return wrong("the sheet or its log is gone");
    accepted = number(sheet + 24, 8);
    /* The last save was undisturbed, and has cut off what the killed had left. */
    if ((!rows && number(sheet + 32, 8) != log_len) || log_len / (ENTRY_HEAD + DIGEST_MOST) < accepted)
        return wrong("the log is longer or shorter than the sheet says");
    if (rows && ids_len != ROW * accepted)
        return wrong("there are more or fewer saves than the sheet says");
    order = enough(calloc(accepted + 1, sizeof *order));
    certain = enough(calloc(accepted + 1, sizeof *certain));
    certain[accepted] = INT64_MAX;
    digests = enough(calloc(accepted + 1, sizeof *digests));
    for (int r = 0; r <= rivals; r++)
        seen[r] = enough(calloc((size_t)shared->rivals[r].attempts + 1, 1));
    return 0;
}

int check(const struct store *store, size_t code, const struct shared *shared, int rivals, long wanted, double seconds)
{
    long outside = 0, inside = 0;

    if (prepare(store, shared, rivals))
        return 1;
    for (int r = 0; r <= rivals; r++) {
        outside += shared->rivals[r].outside;
        inside += shared->rivals[r].inside;
    }
    list_digest(&list, code, digests[0]);
    if (fold(code, shared, rivals) || check_sheet(code) || account_all(shared, rivals))
        return 1;

    printf("accepted %zu, of which %ld by savers that were killed before they could say so", accepted, killed_saved);
    if (rows)
        printf(", %ld by some that lost their connection and asked by their id", done_asked);
    putchar('\n');
    if (kinds(wanted))
        return 1;
    printf("turned away: %ld stale (%ld with a group named), %ld for want of a well; nothing to save: %ld\n",
           stale_group + stale_tail, stale_group, absent, nothing);
    printf("killed %ld: %ld at any time, %ld at a %s of the save; %ld of them had saved nothing\n",
           killed_saved + killed_before, outside, inside, store->parts, killed_before);
    if (rows && losses(shared, rivals, wanted))
        return 1;
    printf("%.1f s, %.1f accepted saves a second\n", seconds, (double)accepted / seconds);
    return 0;
}
