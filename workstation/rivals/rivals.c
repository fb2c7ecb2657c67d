/*
 * The trial of the workstation: rivals PLAN FOLDER PROCESSES SAVES SEED [DATABASE]. So many processes save
 * against each other by running the program PLAN until SAVES saves were accepted; some of the savers are
 * killed, from outside at any time, or by dying.c or losing.c at a step of the save. In a database they lose
 * their connections too, and the server is killed (server.h). What each intended and was told goes into its
 * notes, and check.c judges the sheet by them.
 */
#define _DEFAULT_SOURCE /* MAP_ANONYMOUS */
#include "rivals.h"
#include <dirent.h>
#include <stdio.h>
#include <stdlib.h>
#include <string.h>
#include <sys/mman.h>
#include <sys/wait.h>
#include <time.h>
#include <unistd.h>

enum { VIOLATED = -200, ASK_ACCEPTED = 0, ASK_MISSING = 69 };

static struct shared *shared;
static const struct store *store;
static char *plan, folder[3072];
static long wanted, room;
static size_t code;
static struct save save; /* the last that was tried */

/* Says the first violation of all, with the last line that the workstation printed where its status is the matter. */
static int failed(int r, const char *doing, int status)
{
    char *end = said_err + strlen(said_err), *last = end;

    if (atomic_fetch_add(&shared->failed, 1) == 0) {
        printf("trial: VIOLATED: r%d: %s", r, doing);
        while (last > said_err && (last >= end - 1 || last[-1] != '\n'))
            last--;
        if (status != VIOLATED)
            printf(" ended with %d and said: %.300s", status, last);
        putchar('\n');
        fflush(stdout);
    }
    return VIOLATED;
}

/* Runs a command that only asks. A server that is away refuses it, or loses it: then it is asked again after a little
   while, and whether that lasts too long is seen. Notes when the last was begun and ended. */
static int look(char *const *arguments, int64_t *begun, int64_t *ended)
{
    int64_t first = now();
    int status;

    for (;;) {
        *begun = now();
        status = run(arguments, &unharmed, -1);
        *ended = now();
        if (!store->rows || (status != LOST && status != UNKNOWN) || *ended - first > INT64_C(60000000000))
            return status;
        atomic_fetch_add(&shared->refused, 1);
        rest(50000000);
    }
}

/* Opens the sheet, and notes its digest as the claim. Gives how many saves it has had, or VIOLATED. */
static long open_sheet(int r, struct attempt *a, struct list *list)
{
    char *opening[] = {plan, "show", (char *)store->sheet, "--csv", NULL};
    uint8_t digest[DIGEST_MOST];
    unsigned long n;
    long saves;
    int status = look(opening, &a->opening, &a->opened);

    if (status != 0 || sscanf(said_err, "%lu record%*[s,] code %*u, %ld save", &n, &saves) != 2 ||
        !told_digest(said_err, code, a->claim, save.claim))
        return failed(r, "show", status);
    if (!list_from_csv(list, said_out) || list->n != n)
        return failed(r, "show gave a text that isn't that of a sheet", VIOLATED);
    list_digest(list, code, digest);
    if (memcmp(digest, a->claim, DIGEST_MOST) != 0)
        return failed(r, "show gave a text that hasn't the digest", VIOLATED);
    return saves;
}

/* Takes away the text that the workstation kept for a planner whom it turned away. Gives 1 where it was there, 0 where
   none was, and VIOLATED where it was another than the planner's. */
static int take_kept(void)
{
    char path[PATH_ROOM];
    size_t len, head = strlen("opened,\n") + strlen(save.claim);
    uint8_t *bytes;
    int same;

    if (!find_kept(store->folder, save.who, path) || !(bytes = whole(path, "", &len)))
        return 0;
    same = len == head + save.text_len && memcmp(bytes, "opened,", 7) == 0 &&
           memcmp(bytes + 7, save.claim, head - 8) == 0 && bytes[head - 1] == '\n' &&
           memcmp(bytes + head, save.text, save.text_len) == 0;
    free(bytes);
    return unlink(path) == 0 && same ? 1 : VIOLATED;
}

/* Runs the save of an attempt and gives how it ended. */
static int run_save(int r, const struct attempt *a, const struct doom *doom, int64_t kill_after)
{
    char path[PATH_ROOM], *saving[8 + WELLS_MOST] = {plan, "save", (char *)store->sheet, save.claim};
    size_t i = 4;
    int status;

    snprintf(path, sizeof path, "%s/r%d.csv", folder, r);
    if (a->kind == SAVE) {
        saving[i++] = path;
        if (!write_whole(path, save.text, save.text_len))
            return -104;
    } else {
        saving[1] = a->kind == STRIKE ? "strike" : "close-up";
    }
    for (size_t w = 0; w < save.wells_n; w++)
        saving[i++] = save.wells[w];
    saving[i++] = "--as";
    saving[i++] = save.who;
    saving[i] = NULL;
    status = run(saving, doom, kill_after);
    return status == LUFFA_DONE && strstr(said_out, "nothing to save") ? NOTHING : status;
}

/* One who doesn't know whether its save was accepted was told an id, and asks by it once the server answers. Notes what
   the answer is. Gives 0, or a status where there is none. */
static int ask_later(struct attempt *a)
{
    static const char digits[] = "0123456789abcdef-";
    char *asking[] = {plan, "ask", (char *)store->sheet, a->id, NULL};
    const char *at = said_err;
    int64_t begun, ended;
    int status;

    while (*at && strspn(at, digits) != 36)
        at += strspn(at, digits) > 0 ? strspn(at, digits) : 1;
    if (!*at)
        return -105;
    memcpy(a->id, at, 36);
    status = look(asking, &begun, &ended);
    a->asked = status == ASK_ACCEPTED ? ASKED_ACCEPTED : ASKED_MISSING;
    if ((status == ASK_ACCEPTED && strncmp(said_out, "accepted: save ", 15) == 0) ||
        (status == ASK_MISSING && strncmp(said_out, "not accepted", 12) == 0))
        return 0;
    return status == ASK_ACCEPTED ? -106 : status;
}

/* Whether an attempt may end so: what is lost can be only where there is a connection. */
static int known_end(int end)
{
    return end == KILLED || end == NOTHING || end == LUFFA_DONE || end == LUFFA_STALE || end == LUFFA_STALE_TAIL ||
           end == LUFFA_WELL || (store->rows && (end == LOST || end == UNKNOWN));
}

/* Notes how an attempt ended. Gives its end, or VIOLATED where it could not have ended so. */
static int ended(int r, struct attempt *a)
{
    int stale = a->end == LUFFA_STALE || a->end == LUFFA_STALE_TAIL, kept = take_kept();
    int untold = a->end == KILLED || a->end == LUFFA_WELL || a->end == LOST || a->end == UNKNOWN;
    const char *saved = strstr(said_out, "saved: ");
    char digits[DIGITS_MOST];
    size_t left;
    int asked;

    if (!known_end(a->end))
        return failed(r, "a save", a->end);
    if (kept == VIOLATED)
        return failed(r, "another text was kept than was to be saved", VIOLATED);
    if (stale && a->kind == SAVE && !kept)
        return failed(r, "turned away, and the text wasn't kept", VIOLATED);
    if (kept && (a->kind != SAVE || !(stale || a->end == KILLED || a->end == LOST)))
        return failed(r, "a text was kept, and none was turned away", VIOLATED);
    if (!untold && !told_digest(stale ? said_err : said_out, code, a->told, digits))
        return failed(r, "a save without a digest", a->end);
    if (a->end == LUFFA_DONE && (!saved || sscanf(saved, "saved: %zu record", &left) != 1 || left != save.left))
        return failed(r, "told another number of records than the save must leave", VIOLATED);
    if (strstr(said_err, "Asked by its id"))
        a->asked = a->end == LUFFA_DONE ? ASKED_ACCEPTED : ASKED_MISSING;
    if (a->end == UNKNOWN && (asked = ask_later(a)) != 0)
        return failed(r, "asking by the id that the save was to be asked by", asked);
    return a->end;
}

/* One attempt: opens the sheet and saves. Gives how it ended, or VIOLATED. */
static int attempt(int r, enum wish wish, const struct doom *doom, int64_t kill_after)
{
    static struct list list;
    struct rival *me = &shared->rivals[r];
    struct attempt *a = &me->attempt[me->attempts];
    long saves;

    if (me->attempts == room)
        return failed(r, "turned away more often than the saves can explain", VIOLATED);
    saves = open_sheet(r, a, &list);
    if (saves == VIOLATED)
        return VIOLATED;
    snprintf(save.who, sizeof save.who, "r%d.%ld", r, me->attempts);
    intend(a, wish, &list, saves, wanted, &save);
    list_digest(&list, code, a->aim);
    save.text_len = a->kind == SAVE ? list_to_csv(&list, save.text) : 0;
    save.left = list.n;
    a->end = UNDER_WAY;
    a->doomed = doom->variable[0] != 0;
    /* Planners look before they save. */
    if (any(4) == 0)
        rest((int64_t)any(3000000));

    a->saving = now();
    me->attempts++;
    a->end = run_save(r, a, doom, kill_after);
    a->saved = now();
    if (a->end == KILLED) {
        me->outside += kill_after >= 0;
        me->inside += kill_after < 0;
    } else if (a->end == LUFFA_DONE) {
        atomic_fetch_add(&shared->accepted, 1);
    }
    return ended(r, a);
}

/* An attempt that may be disturbed. A doom that was drawn stays until it has come, or until the save was accepted all
   the same. Kills from outside fall between the start and a little after the usual end of a save. */
static int endangered(int r, enum wish wish)
{
    static struct doom doom;
    static int64_t duration = 10000000;
    static long drawn;
    const struct rival *me = &shared->rivals[r];
    int outside = any(10) == 0, status;

    if (!doom.variable[0] && any(store->one_in) == 0)
        store->draw(&doom, r, drawn++);
    status = outside ? attempt(r, wish, &unharmed, (int64_t)any((size_t)duration)) : attempt(r, wish, &doom, -1);
    if (status == LUFFA_DONE) {
        const struct attempt *a = &me->attempt[me->attempts - 1];
        duration = (duration * 7 + (a->saved - a->saving) * 3 / 2) / 8;
    }
    if (!outside && (status == LUFFA_DONE || status == KILLED || status == LOST || status == UNKNOWN))
        doom = unharmed;
    return status;
}

/* Saves until enough were accepted. Its wishes come in rounds, so that each comes up, in an order drawn by lot. One who
   is turned away as stale, killed or lost opens again and tries again. */
static int rival(int r, uint64_t seed)
{
    enum wish round[] = {CHANGES, CHANGES, CHANGES, SIZE, SIZE, SIZE, SIZE, STRIKES, CLOSING, ODD};
    size_t size = sizeof round / sizeof *round, left = 0;
    int status;

    any_from((seed + 1) * UINT64_C(0x9e3779b97f4a7c15) + (uint64_t)r * UINT64_C(0xbf58476d1ce4e5b9));
    while (atomic_load(&shared->accepted) < wanted && atomic_load(&shared->failed) == 0) {
        size_t drawn = any(left > 0 ? left : (left = size));
        enum wish wish = round[drawn];

        round[drawn] = round[--left];
        round[left] = wish;
        do {
            status = endangered(r, wish);
        } while (status != VIOLATED && status != LUFFA_DONE && status != NOTHING && status != LUFFA_WELL &&
                 atomic_load(&shared->accepted) < wanted);
        if (status == VIOLATED)
            return 1;
    }
    return 0;
}

/* In the folder stand the files that are to stay there, and nothing else. That of a database's texts is cleared up by
   who keeps one: here by one more who is turned away, as the last save has made its own claim an old one. */
static int leftovers(int r)
{
    const struct rival *me = &shared->rivals[r];
    DIR *all;
    struct dirent *one;
    int found = 0, status;

    if (store->rows) {
        status = run_save(r, &me->attempt[me->attempts - 1], &unharmed, -1);
        if ((status != LUFFA_STALE && status != LUFFA_STALE_TAIL) || take_kept() != 1)
            return failed(r, "the last save, made again,", status);
    }
    all = opendir(store->folder);
    while (all && (one = readdir(all)) != NULL)
        if (!store->stays(one->d_name) && one->d_name[0] != '.') {
            printf("trial: VIOLATED: %s was left behind\n", one->d_name);
            found = 1;
        }
    if (all)
        closedir(all);
    return found || !all;
}

/* Makes the sheet. One save of it may say how saves are done. */
static int begin(int rivals)
{
    struct doom tell = {.variable = "LOSING=tell"};
    char digit[2] = {(char)('0' + code), 0}, *making[] = {plan, "new", (char *)store->sheet, "--code", digit, NULL};
    int status = run(making, &unharmed, -1);

    if (status != 0)
        return failed(rivals, "new", status);
    if (!store->learn)
        return 0;
    if ((status = attempt(rivals, SIZE, &tell, -1)) != LUFFA_DONE)
        return failed(rivals, "the first save", status);
    return store->learn(said_err) ? 0 : failed(rivals, "the first save had no COMMIT", VIOLATED);
}

static pid_t start(int r, uint64_t seed)
{
    pid_t child = fork();

    if (child != 0)
        return child;
    if (r >= 0)
        _exit(rival(r, seed));
    store->disturb(shared, wanted);
    _exit(0);
}

/* Lets the rivals at the sheet. Gives 0 where all of them have ended well. */
static int compete(int rivals, uint64_t seed, double *seconds)
{
    pid_t started[RIVALS_MOST], other = 0;
    int status, bad = 0;
    int64_t begun;

    printf("%d processes, %ld saves, seed %llu, code %zu%s\n", rivals, wanted, (unsigned long long)seed, code,
           store->rows ? ", over PostgreSQL" : "");
    fflush(stdout);
    begun = now();
    for (int r = 0; r < rivals; r++)
        if ((started[r] = start(r, seed)) < 0)
            return 1;
    if (store->disturb && (other = start(-1, seed)) < 0)
        return 1;
    for (int r = 0; r < rivals; r++)
        if (waitpid(started[r], &status, 0) < 0 || !WIFEXITED(status) || WEXITSTATUS(status) != 0)
            bad = 1;
    *seconds = (double)(now() - begun) / 1e9;
    atomic_store(&shared->over, 1);
    if (other > 0 && waitpid(other, &status, 0) < 0)
        bad = 1;
    return bad || atomic_load(&shared->failed) != 0;
}

static int share(int rivals)
{
    room = 4 * wanted + 1000;
    shared = mmap(NULL, sizeof *shared, PROT_READ | PROT_WRITE, MAP_SHARED | MAP_ANONYMOUS, -1, 0);
    if (shared == MAP_FAILED)
        return 0;
    for (int r = 0; r <= rivals; r++) {
        shared->rivals[r].attempt = mmap(NULL, (size_t)room * sizeof(struct attempt), PROT_READ | PROT_WRITE,
                                         MAP_SHARED | MAP_ANONYMOUS, -1, 0);
        if (shared->rivals[r].attempt == MAP_FAILED)
            return 0;
    }
    shared->began = (int64_t)time(NULL);
    return 1;
}

int main(int argc, char **argv)
{
    int rivals = argc == 6 || argc == 7 ? atoi(argv[3]) : 0, status;
    uint64_t seed;
    double seconds = 0;

    if (rivals < 2 || rivals > RIVALS_MOST || (wanted = atol(argv[4])) < 1) {
        fprintf(stderr, "rivals PLAN FOLDER PROCESSES SAVES SEED [DATABASE], with 2 to %d processes\n", RIVALS_MOST);
        return 2;
    }
    plan = argv[1];
    seed = strtoull(argv[5], NULL, 10);
    code = 1 + seed % 4;
    snprintf(folder, sizeof folder, "%s", argv[2]);
    store = argc == 7 ? database_store(folder, argv[6]) : file_store(folder);
    any_from(seed + 1);
    if (!store || !share(rivals))
        return 2;
    if (begin(rivals) || compete(rivals, seed, &seconds))
        return 1;

    /* One more save, undisturbed, clears away what the killed have left. The workstation's own opinion comes last. */
    char *verifying[] = {plan, "verify", (char *)store->sheet, NULL};
    if ((status = attempt(rivals, CHANGES, &unharmed, -1)) != LUFFA_DONE)
        return failed(rivals, "the last save", status), 1;
    if ((store->gather && store->gather(store)) || check(store, code, shared, rivals, wanted, seconds) ||
        leftovers(rivals))
        return 1;
    status = run(verifying, &unharmed, -1);
    return status == 0 ? 0 : (failed(rivals, "verify", status), 1);
}
