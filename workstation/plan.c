/* The planners' workstation: a sheet of wells that several planners share. A save carries the digest of the sheet that
   its planner opened, and is turned away where somebody else has saved since. README.md says how to use it. */
#define _XOPEN_SOURCE 700 /* realpath */
#include "brine.h"
#include "changes.h"
#include "csvfile.h"
#include "edit.h"
#include "init.h"
#include "say.h"
#include "show.h"
#include <errno.h>
#include <inttypes.h>
#include <pwd.h>
#include <signal.h>
#include <stdlib.h>
#include <string.h>
#include <sys/stat.h>
#include <time.h>
#include <unistd.h>

static const char usage[] =
    "plan new SHEET [--code N] [--from FILE.csv]      makes a sheet: empty, or with the wells of a CSV file\n"
    "plan show SHEET [--csv]                          the wells, the digest, and whether they are sound\n"
    "plan edit SHEET [--resume]                       the wells as CSV in $VISUAL or $EDITOR, and saves them\n"
    "plan save SHEET CLAIM FILE.csv                   makes the sheet what the file has, as one save\n"
    "plan strike SHEET CLAIM WELL...                  strikes wells that are given up\n"
    "plan close-up SHEET CLAIM                        takes all struck records away\n"
    "plan check SHEET...                              sound, or the first fault in words\n"
    "plan mend SHEET                                  mends marks that a disk has spoiled\n"
    "plan reach SHEET WELL [--hops N]                 who depends on a well, over at most N links, 3 unless said\n"
    "plan brine SHEET... [--csv] [--html FILE]        the brine statement: a table, CSV, or one page\n"
    "plan log SHEET                                   who saved what, and when\n"
    "plan verify SHEET                                builds the marks and makes every save again, and compares\n"
    "plan ask SHEET ID                                whether the save of this id was accepted\n"
    "plan init DATABASE                               makes the tables and roles for sheets in PostgreSQL\n"
    "\n"
    "SHEET is a file, or postgresql://[USER@][HOST[:PORT]]/DATABASE/SHEET[?PARAMETERS], and DATABASE such a name "
    "without\n"
    "the sheet.\n"
    "\n"
    "CLAIM is the digest of the sheet as you opened it. new, edit, save, strike and close-up take --as NAME, at most\n"
    "24 bytes, for the log; else it is your login name. N of --code is 1 to 4 for 224, 256, 384 and 512 bits, and 2\n"
    "unless said.\n"
    "\n"
    "Status: 0 done. Else the number with which the library refused: 1 no such code, 8 full, 10 CLAIM of another\n"
    "length, 11 or 16 the sheet has changed since, 13 too many sheets, 19 too many hops, 20 not sound, 21 no such\n"
    "well. 64 the command can't be understood. 65 the sheet, its log or a CSV file can't be used, or you have said\n"
    "no. 73 SHEET, or a text that is kept, exists already. 74 the system or the server refused. After all these "
    "nothing\n"
    "was saved. 75 saved, but the system didn't confirm it, or the answer couldn't be printed. 76 the connection was\n"
    "lost at the commit, and the server can't be asked: not known. 69 of plan ask: not accepted.\n";

static struct desk desk;
static struct steps steps;

/* What the options say, and the other arguments after the command. */
static struct {
    const char *code, *from, *as, *html, *hops;
    int csv, resume;
} options;
static const char *const *arguments;
static size_t given;

/* A number in decimal digits. One that is too large becomes the largest there is, which the library refuses. */
static size_t number(const char *digits)
{
    size_t n = 0;

    if (!*digits || digits[strspn(digits, "0123456789")])
        stop(USAGE, "%s isn't a number.", digits);
    for (; *digits; digits++) {
        size_t digit = (size_t)(*digits - '0');
        n = n > (SIZE_MAX - digit) / 10 ? SIZE_MAX : 10 * n + digit;
    }
    return n;
}

/* The name for the log: nobody checks it. */
static const char *who(void)
{
    const char *name = options.as ? options.as : getenv("LOGNAME");

    if (!options.as && (!name || !*name)) {
        struct passwd *user = getpwuid(getuid());
        name = user && user->pw_name[0] ? user->pw_name : "-";
    }
    if (!*name || strlen(name) > WHO)
        stop(USAGE, "%s: a name has 1 to %d bytes.", name, WHO);
    return name;
}

/* Makes the sheet, empty. Where there is one it is left alone, but for one that has never been saved and is to be
   filled: it is what a `new` that was killed before it could do so has left. (Where that one is only slower, one of the
   two is told that the sheet has changed.) */
static void make_empty(int to_be_filled)
{
    static struct sheet there;

    if (store_make(&desk.store, &desk.sheet))
        return;
    if (to_be_filled)
        store_read(&desk.store, &there, NULL);
    if (!to_be_filled || there.saves > 0 || there.code != desk.sheet.code)
        stop(EXISTS, "%s exists already.", desk.store.given);
}

static int run_new(void)
{
    static struct list list;
    static struct text text;
    char opened[OPENED_MOST];
    struct claim claim;
    const char *name = who();
    uint64_t answer;

    closing = " Nothing was made.";
    desk.sheet.code = options.code ? number(options.code) : LUFFA_256;
    answer = sheet_build(&desk.sheet);
    if (answer != LUFFA_DONE)
        stop((int)answer, "Refused, answer %d. %s", (int)answer, sentence(answer));
    if (options.from) {
        csvfile_read(&text, &list, opened, options.from);
        say_fault(&list);
    }
    store_find_new(&desk.store, arguments[0]);
    make_empty(list.n > 0);
    /* The wells are the new sheet's first save, so that its log leads to it. */
    if (list.n > 0) {
        closing = " The sheet is made, but it is empty.";
        digest_digits(opened, &desk.sheet);
        claim_read(&claim, opened);
        store_open(&desk.store, &desk.sheet, NULL);
        steps_between(&steps, &desk.sheet.list, &list);
        desk_save(&desk, &steps, &claim, name, NULL);
        return desk_answer(&desk);
    }
    print_digest(stdout, desk.sheet.digest, digest_bytes(desk.sheet.code));
    return printed(UNSURE);
}

static int run_show(void)
{
    return show(arguments[0], options.csv);
}

static int run_edit(void)
{
    return edit(arguments[0], who(), options.resume);
}

static int run_save(void)
{
    static struct kept kept;
    static struct list list;
    static struct text text;
    char opened[OPENED_MOST];
    struct claim claim, said;
    const char *name = who();

    closing = " Nothing was saved.";
    claim_read(&claim, arguments[1]);
    csvfile_read(&text, &list, opened, arguments[2]);
    opened[strcspn(opened, ",")] = 0;
    claim_read(&said, opened);
    if (opened[0] && (said.len != claim.len || memcmp(said.bytes, claim.bytes, claim.len) != 0))
        stop(USAGE, "%s was opened under another digest than the claim.", arguments[2]);
    store_find(&desk.store, arguments[0]);
    kept_find(&kept, &desk.store, name);
    claim_digits(opened, &claim);
    kept_from_text(&kept, text.bytes, text.len, opened);
    /* What changes is told of the sheet that the planner has seen, and of no other. */
    store_read(&desk.store, &desk.sheet, NULL);
    if (claims(&claim, &desk.sheet)) {
        changes_print(stdout, &desk.sheet.list, &list);
        say_fault(&list);
    }
    desk_open(&desk);
    steps_between(&steps, &desk.sheet.list, &list);
    desk_save(&desk, &steps, &claim, name, &kept);
    /* What was kept of the same text when it was turned away is saved now. */
    if (!kept.why && kept_there(&kept, &desk.store) == 1)
        kept_remove(&kept, &desk.store);
    return desk_answer(&desk);
}

/* The sheet without the wells that the arguments name. One that the claim doesn't speak of is left as it is: that it
   has changed comes before what may be amiss with it. */
static void strike(struct list *list, const struct claim *claim)
{
    *list = desk.sheet.list;
    for (size_t i = 2; i < given && claims(claim, &desk.sheet); i++) {
        size_t place = place_of(&desk.sheet.list, number(arguments[i]));

        if (place == list->n)
            stop(LUFFA_WELL, "Refused, answer %d. No record of the sheet has number %s.", LUFFA_WELL, arguments[i]);
        if (place > list->n)
            stop(LUFFA_UNSOUND, "Refused, answer %d. Several records have number %s.", LUFFA_UNSOUND, arguments[i]);
        memset(list->records + RECORD * place, 0, RECORD);
    }
}

static int run_strike(void)
{
    static struct list list;
    struct claim claim;
    const char *name = who();

    closing = " Nothing was saved.";
    claim_read(&claim, arguments[1]);
    store_find(&desk.store, arguments[0]);
    store_read(&desk.store, &desk.sheet, NULL);
    strike(&list, &claim);
    if (claims(&claim, &desk.sheet))
        say_fault(&list);
    desk_open(&desk);
    strike(&list, &claim);
    steps_between(&steps, &desk.sheet.list, &list);
    desk_save(&desk, &steps, &claim, name, NULL);
    return desk_answer(&desk);
}

static int run_close_up(void)
{
    static struct list list;
    struct claim claim;
    const char *name = who();
    size_t before;

    closing = " Nothing was saved.";
    claim_read(&claim, arguments[1]);
    store_find(&desk.store, arguments[0]);
    store_read(&desk.store, &desk.sheet, NULL);
    list = desk.sheet.list;
    steps_close_up(&steps, &list);
    if (claims(&claim, &desk.sheet) && steps.n > 0 && steps_fold(&list, &steps))
        say_fault(&list);
    desk_open(&desk);
    before = desk.sheet.list.n;
    steps_close_up(&steps, &desk.sheet.list);
    desk_save(&desk, &steps, &claim, name, NULL);
    if (desk.saved)
        printf("%zu struck record%s taken away\n", before - desk.sheet.list.n,
               before - desk.sheet.list.n == 1 ? " is" : "s are");
    return desk_answer(&desk);
}

static int run_check(void)
{
    return check(arguments, given);
}

static int run_mend(void)
{
    return mend(arguments[0]);
}

static int run_reach(void)
{
    return reach(arguments[0], number(arguments[1]), options.hops ? number(options.hops) : LUFFA_HOPS_MOST);
}

static int run_log(void)
{
    return print_log(arguments[0]);
}

static int run_ask(void)
{
    uint64_t number;

    store_find(&desk.store, arguments[0]);
    number = store_ask(&desk.store, arguments[1]);
    if (number > 0)
        printf("accepted: save %" PRIu64 "\n", number);
    else
        printf("not accepted: no save of this sheet has this id\n");
    printed(FAILED);
    return number > 0 ? LUFFA_DONE : NOT_ACCEPTED;
}

static int run_init(void)
{
    return init(arguments[0]);
}

static int run_verify(void)
{
    return verify(arguments[0]);
}

/* The time now, or the one that SOURCE_DATE_EPOCH names, by which the same sheets give the same page. */
static const char *when(void)
{
    static char text[64];
    const char *epoch = getenv("SOURCE_DATE_EPOCH");
    time_t seconds = epoch ? (time_t)strtoll(epoch, NULL, 10) : time(NULL);
    struct tm parts;

    if (!(epoch ? gmtime_r(&seconds, &parts) : localtime_r(&seconds, &parts)) ||
        strftime(text, sizeof text, epoch ? "%Y-%m-%d %H:%M UTC" : "%Y-%m-%d %H:%M %Z", &parts) == 0)
        return "at an unknown time";
    return text;
}

/* A page is written over a page, and over no other file: least of all over a sheet. */
static void check_page(const char *file)
{
    static const char begin[] = "<!DOCTYPE html>";
    char found[sizeof begin] = "";
    FILE *there = fopen(file, "r");
    size_t n = there ? fread(found, 1, sizeof begin - 1, there) : 0;

    if (!there && errno == ENOENT)
        return;
    if (there)
        fclose(there);
    if (n < sizeof begin - 1 || strcmp(found, begin) != 0)
        stop(EXISTS, "%s is there, and is no page: it isn't written over.", file);
}

/* The page takes its name when it is whole, where a link stands the one that it leads to; what is no file, as a
   terminal, is written to. */
static void write_page(const struct brine *brine, const char *file)
{
    char part[PATH_MAX], *path = realpath(file, NULL);
    const char *name = path ? path : file;
    struct stat about;
    int whole = stat(file, &about) != 0 || S_ISREG(about.st_mode), failed;
    FILE *to;

    if (whole)
        check_page(file);
    if ((size_t)snprintf(part, sizeof part, whole ? "%s~%ld" : "%s", name, (long)getpid()) >= sizeof part)
        stop(USAGE, "%s: the name is too long.", file);
    to = fopen(part, "w");
    if (!to)
        stop_failed(FAILED, "Can't make", file);
    brine_page(to, brine, when());
    failed = ferror(to);
    failed = fclose(to) != 0 || failed;
    if (!failed && whole)
        failed = rename(part, name) != 0;
    if (failed && whole)
        unlink(part);
    if (failed)
        stop_failed(FAILED, "Can't write", file);
    free(path);
}

static int run_brine(void)
{
    static struct brine brine;
    static struct list lists[LUFFA_BATCH_MOST];
    uint64_t answer;

    if (given > LUFFA_BATCH_MOST)
        stop(LUFFA_BATCH, "Refused, answer %d. %s", LUFFA_BATCH, sentence(LUFFA_BATCH));
    for (size_t i = 0; i < given; i++) {
        struct brine_sheet *one = &brine.sheets[i];

        store_find(&desk.store, arguments[i]);
        store_read(&desk.store, &desk.sheet, NULL);
        lists[i] = desk.sheet.list;
        one->name = strdup(desk.store.given);
        if (!one->name)
            stop_failed(FAILED, "Can't read", arguments[i]);
        store_close(&desk.store);
        one->code = desk.sheet.code;
        one->saves = desk.sheet.saves;
        memcpy(one->digest, desk.sheet.digest, DIGEST_MOST);
    }
    brine.sheets_n = given;
    answer = brine_state(&brine, lists);
    if (answer != LUFFA_DONE)
        stop((int)answer, "Refused, answer %d. %s", (int)answer, sentence(answer));
    if (options.html)
        write_page(&brine, options.html);
    if (options.csv)
        brine_csv(&brine);
    else if (options.html)
        brine_summary(&brine);
    else
        brine_print(&brine);
    return printed(FAILED);
}

/* The options that each command takes, by their first letters, and how many other arguments. */
static const struct command {
    const char *name, *options;
    size_t least, most;
    int (*run)(void);
} commands[] = {
    {"new", "cfa", 1, 1, run_new},
    {"show", "s", 1, 1, run_show},
    {"edit", "ra", 1, 1, run_edit},
    {"save", "a", 3, 3, run_save},
    {"strike", "a", 3, SIZE_MAX, run_strike},
    {"close-up", "a", 2, 2, run_close_up},
    {"check", "", 1, SIZE_MAX, run_check},
    {"mend", "", 1, 1, run_mend},
    {"reach", "h", 2, 2, run_reach},
    {"brine", "sp", 1, SIZE_MAX, run_brine},
    {"log", "", 1, 1, run_log},
    {"verify", "", 1, 1, run_verify},
    {"ask", "", 2, 2, run_ask},
    {"init", "", 1, 1, run_init},
};

static const struct {
    const char *name;
    char letter;
    const char **value; /* or null, and then a flag */
    int *flag;
} known[] = {
    {"--code", 'c', &options.code, NULL},     {"--from", 'f', &options.from, NULL}, {"--as", 'a', &options.as, NULL},
    {"--html", 'p', &options.html, NULL},     {"--hops", 'h', &options.hops, NULL}, {"--csv", 's', NULL, &options.csv},
    {"--resume", 'r', NULL, &options.resume},
};

#if defined(__GNUC__)
__attribute__((noreturn))
#endif
static void stop_usage(void)
{
    fputs(usage, stderr);
    exit(USAGE);
}

/* Takes an option and its value, which may stand anywhere after the command. Gives the arguments that they are. */
static int take(const struct command *command, char **argv, int left)
{
    for (size_t i = 0; i < sizeof known / sizeof *known; i++) {
        if (strcmp(argv[0], known[i].name) != 0 || !strchr(command->options, known[i].letter))
            continue;
        if (known[i].flag) {
            *known[i].flag = 1;
            return 1;
        }
        if (left < 2)
            stop_usage();
        *known[i].value = argv[1];
        return 2;
    }
    stop_usage();
}

int main(int argc, char **argv)
{
    const struct command *command = commands, *end = commands + sizeof commands / sizeof *commands;
    int kept = 0, plain = 0;

    store_hand_over(argv);
    /* A reader of our answer that has gone away is seen where we print, and no reason to die in between. */
    signal(SIGPIPE, SIG_IGN);
    if (argc == 2 && strcmp(argv[1], "--help") == 0) {
        fputs(usage, stdout);
        return printed(FAILED);
    }
    while (command < end && (argc < 2 || strcmp(argv[1], command->name) != 0))
        command++;
    if (command == end)
        stop_usage();
    /* The arguments that are no options move up to the front; after -- all are. */
    for (int i = 2; i < argc;) {
        if (!plain && strcmp(argv[i], "--") == 0) {
            plain = 1;
            i++;
        } else if (!plain && strncmp(argv[i], "--", 2) == 0) {
            i += take(command, argv + i, argc - i);
        } else {
            argv[kept++] = argv[i++];
        }
    }
    arguments = (const char *const *)argv;
    given = (size_t)kept;
    if (given < command->least || given > command->most)
        stop_usage();
    return command->run();
}
