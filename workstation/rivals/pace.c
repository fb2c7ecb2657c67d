/*
 * How many saves a second are accepted: pace PLAN SAVERS SECONDS SHEET... So many processes save for so long by running
 * the program PLAN, and nobody is killed. Saver r takes the sheets r, r + SAVERS and so on, round and round: with as
 * many sheets as savers each stays on its own. It opens a sheet once, changes one of its wells, saves, and goes on from
 * the digest that the answer gave, as its own text is then what the sheet is; who is stale opens again. At the end
 * every sheet is verified, and must have as many saves as were told to be accepted.
 */
#define _DEFAULT_SOURCE /* MAP_ANONYMOUS */
#include "rivals.h"
#include <stdio.h>
#include <stdlib.h>
#include <string.h>
#include <sys/mman.h>
#include <sys/wait.h>
#include <unistd.h>

enum { SHEETS_MOST = 64, CODE = LUFFA_256 };

/* What a saver has of a sheet. */
struct opened {
    int known;
    char claim[DIGITS_MOST];
    struct list list;
};

static struct {
    atomic_long accepted[SHEETS_MOST], stale, failed;
} *shared;
static char *plan, **sheets;
static int savers, sheets_n;

static int failed(const char *doing, const char *sheet, int status)
{
    if (atomic_fetch_add(&shared->failed, 1) == 0)
        fprintf(stderr, "pace: %s of %s ended with %d: %s\n", doing, sheet, status, said_err);
    return 0;
}

/* The saves that a sheet has had, with what is to be known of it for the next, or -1. */
static long open_sheet(char *sheet, struct opened *opened)
{
    char *opening[] = {plan, "show", sheet, "--csv", NULL};
    uint8_t digest[DIGEST_MOST], listed[DIGEST_MOST];
    long saves;
    int status = run(opening, &unharmed, -1);

    if (status != 0 || sscanf(said_err, "%*u record%*[s,] code %*u, %ld save", &saves) != 1 ||
        !told_digest(said_err, CODE, digest, opened->claim) || !list_from_csv(&opened->list, said_out))
        return failed("show", sheet, status), -1;
    list_digest(&opened->list, CODE, listed);
    if (opened->list.n == 0 || memcmp(listed, digest, DIGEST_MOST) != 0)
        return failed("show", sheet, status), -1;
    opened->known = 1;
    return saves;
}

/* The text of a save that was turned away isn't wanted. */
static void discard_kept(const char *sheet, const char *who)
{
    char folder[PATH_ROOM], path[PATH_ROOM];
    const char *state = getenv("XDG_STATE_HOME"), *slash = strrchr(sheet, '/');

    if (strstr(sheet, "://"))
        snprintf(folder, sizeof folder, "%s/plan", state ? state : "");
    else
        snprintf(folder, sizeof folder, "%.*s", slash ? (int)(slash - sheet) : 1, slash ? sheet : ".");
    if (find_kept(folder, who, path))
        unlink(path);
}

/* One save of a sheet, with the text in a file. Gives 0 where it ended as none may. */
static int save(int r, int s, struct opened *opened, char *file)
{
    static char text[TEXT_MOST];
    char who[16], *saving[] = {plan, "save", sheets[s], opened->claim, file, "--as", who, NULL};
    uint8_t listed[DIGEST_MOST], told[DIGEST_MOST];
    int status;

    snprintf(who, sizeof who, "s%d", r);
    list_put(&opened->list, any(opened->list.n), who);
    list_digest(&opened->list, CODE, listed);
    if (!write_whole(file, text, list_to_csv(&opened->list, text)))
        return failed("writing", file, -1);
    status = run(saving, &unharmed, -1);
    if (status == LUFFA_STALE || status == LUFFA_STALE_TAIL) {
        atomic_fetch_add(&shared->stale, 1);
        opened->known = 0;
        discard_kept(sheets[s], who);
        return 1;
    }
    if (status != LUFFA_DONE || !strstr(said_out, "saved: ") || !told_digest(said_out, CODE, told, opened->claim) ||
        memcmp(told, listed, DIGEST_MOST) != 0)
        return failed("save", sheets[s], status);
    atomic_fetch_add(&shared->accepted[s], 1);
    return 1;
}

static int saver(int r, int64_t until)
{
    static struct opened opened[SHEETS_MOST];
    char file[] = P_tmpdir "/pace-XXXXXX";
    int made = mkstemp(file), good = made >= 0;

    any_from((uint64_t)r + 1);
    for (int s = r % sheets_n; good && now() < until && atomic_load(&shared->failed) == 0; s = (s + savers) % sheets_n)
        good = (opened[s].known || open_sheet(sheets[s], &opened[s]) >= 0) && save(r, s, &opened[s], file);
    close(made);
    unlink(file);
    return !good;
}

/* Lets the savers at the sheets. Gives the seconds that it took, or a negative number. */
static double measure(double seconds)
{
    int64_t begun = now();
    int status, bad = 0;

    for (int r = 0; r < savers; r++) {
        pid_t child = fork();
        if (child == 0)
            _exit(saver(r, begun + (int64_t)(1e9 * seconds)));
        if (child < 0)
            return -1;
    }
    for (int r = 0; r < savers; r++)
        if (wait(&status) < 0 || !WIFEXITED(status) || WEXITSTATUS(status) != 0)
            bad = 1;
    return bad ? -1 : (double)(now() - begun) / 1e9;
}

/* Whether a sheet is true, and has had so many saves more. */
static int true_sheet(int s, long before)
{
    static struct opened opened;
    char *verifying[] = {plan, "verify", sheets[s], NULL};
    int status = run(verifying, &unharmed, -1);
    long saves;

    if (status != 0)
        return failed("verify", sheets[s], status);
    saves = open_sheet(sheets[s], &opened);
    if (saves != before + atomic_load(&shared->accepted[s]))
        fprintf(stderr, "pace: %s had %ld saves, %ld were told to be accepted, and it has %ld\n", sheets[s], before,
                atomic_load(&shared->accepted[s]), saves);
    return saves == before + atomic_load(&shared->accepted[s]);
}

int main(int argc, char **argv)
{
    static struct opened opened;
    double seconds = argc > 4 ? atof(argv[3]) : 0;
    long before[SHEETS_MOST], accepted = 0;

    sheets_n = argc - 4;
    if (sheets_n < 1 || sheets_n > SHEETS_MOST || (savers = atoi(argv[2])) < 1 || seconds <= 0) {
        fprintf(stderr, "pace PLAN SAVERS SECONDS SHEET..., with at most %d sheets\n", SHEETS_MOST);
        return 2;
    }
    plan = argv[1];
    sheets = argv + 4;
    shared = mmap(NULL, sizeof *shared, PROT_READ | PROT_WRITE, MAP_SHARED | MAP_ANONYMOUS, -1, 0);
    if (shared == MAP_FAILED)
        return 2;
    for (int s = 0; s < sheets_n; s++)
        if ((before[s] = open_sheet(sheets[s], &opened)) < 0)
            return 1;
    if ((seconds = measure(seconds)) < 0)
        return 1;
    for (int s = 0; s < sheets_n; s++) {
        if (!true_sheet(s, before[s]))
            return 1;
        accepted += atomic_load(&shared->accepted[s]);
    }
    printf("savers %d, sheets %d, seconds %.1f, accepted %ld, a second %.1f, stale %ld\n", savers, sheets_n, seconds,
           accepted, (double)accepted / seconds, atomic_load(&shared->stale));
    return 0;
}
