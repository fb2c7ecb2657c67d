/* The functions of edit.h. */
#define _POSIX_C_SOURCE 200809L
#include "edit.h"
#include "csvfile.h"
#include "lay.h"
#include "say.h"
#include <errno.h>
#include <signal.h>
#include <stdlib.h>
#include <string.h>
#include <sys/wait.h>
#include <unistd.h>

static struct desk desk;
static struct kept kept;
static struct laid laid;

/* The list that was opened, what the text makes of it, and the line `opened` of the text without its first cell. */
static struct list opened, mine;
static char line_opened[OPENED_MOST];

/* The first letter of the planner's answer; where there is none, as at the end of standard input, it is no. */
static char ask(const char *question)
{
    char answer[64];

    fflush(stderr);
    printf("%s ", question);
    fflush(stdout);
    if (!fgets(answer, sizeof answer, stdin)) {
        putchar('\n');
        return 'n';
    }
    /* The rest of a long answer isn't the next one. */
    while (!strchr(answer, '\n') && !feof(stdin) && getchar() != '\n')
        ;
    return (char)(answer[0] >= 'A' && answer[0] <= 'Z' ? answer[0] - 'A' + 'a' : answer[0]);
}

#if defined(__GNUC__)
__attribute__((noreturn))
#endif
static void leave(int status)
{
    fflush(stdout);
    fprintf(stderr, "Nothing was saved. ");
    kept_say(&kept, &desk.store);
    exit(status);
}

/* The editor is a line for the shell, as other programs take it: it may have arguments. Meanwhile a break from the
   keyboard is the editor's. */
static void run_editor(void)
{
    const char *editor = getenv("VISUAL");
    void (*on_break)(int), (*on_quit)(int);
    char line[4096];
    int status;
    pid_t child;

    if (!editor || !*editor)
        editor = getenv("EDITOR");
    if (!editor || !*editor)
        editor = "vi";
    if ((size_t)snprintf(line, sizeof line, "%s \"$1\"", editor) >= sizeof line)
        stop(USAGE, "The editor's name is too long.");
    fflush(stdout);
    on_break = signal(SIGINT, SIG_IGN);
    on_quit = signal(SIGQUIT, SIG_IGN);
    child = fork();
    if (child == 0) {
        signal(SIGINT, on_break);
        signal(SIGQUIT, on_quit);
        signal(SIGPIPE, SIG_DFL);
        execl("/bin/sh", "sh", "-c", line, "plan", kept.path, (char *)NULL);
        _exit(127);
    }
    while (child > 0 && waitpid(child, &status, 0) < 0)
        if (errno != EINTR)
            child = -1;
    signal(SIGINT, on_break);
    signal(SIGQUIT, on_quit);
    if (child < 0 || !WIFEXITED(status) || WEXITSTATUS(status) != 0) {
        fprintf(stderr, "plan: The editor ended with a failure: %s\n", editor);
        leave(FAILED);
    }
}

/* Reads the file of the text. Gives 0 where there is none. */
static int read_file(void)
{
    int found = kept_read(&kept, &desk.store);

    if (found < 0)
        stop_failed(FAILED, "Can't read", kept.path);
    return found;
}

/* Reads the text. Gives 0 where it has a fault, which is said. `wanted` is what its line `opened` has, or null. */
static int read_text(char said[OPENED_MOST], const char *wanted)
{
    struct csv_fault fault = {.line = 1, .column = 1};

    if (!read_file())
        stop(FAILED, "%s is gone.", kept.path);
    if (csv_read(&mine, said, kept.text, kept.len, &fault)) {
        if (said[0] && (!wanted || strcmp(said, wanted) == 0))
            return 1;
        snprintf(fault.words, sizeof fault.words, "the first line is to be opened,%s", wanted ? wanted : "DIGEST");
    }
    say_at(kept.name, &fault);
    return 0;
}

static void again_or_leave(void)
{
    if (ask("Edit it again? [y, or n to leave it]") != 'y')
        leave(DAMAGED);
    run_editor();
}

/* Edits until the text can be read, and the planner has seen what it changes and doesn't want to go back to it. */
static void edit_text(void)
{
    char said[OPENED_MOST], words[WORDS_MOST], answer = 'e';

    while (answer == 'e') {
        run_editor();
        while (!read_text(said, line_opened))
            again_or_leave();
        changes_print(stdout, &opened, &mine);
        if (same_list(&opened, &mine) || (!fault_words(words, &mine) && laid.both_n == 0))
            return;
        fflush(stdout);
        if (fault_words(words, &mine))
            fprintf(stderr, "plan: Not sound: %s.\n", words);
        if (laid.both_n > 0)
            fprintf(stderr, "plan: Others have changed %zu of these records too.\n", laid.both_n);
        answer = ask("Save it all the same? [y, n to leave it, e to edit it]");
    }
    if (answer != 'y')
        leave(DAMAGED);
}

/* Makes the text under the digest of the sheet as it is now, which is what the planner sees, and under that of the
   sheet first opened, where it is another. */
static void make_text(const struct list *text, const char *first)
{
    digest_digits(line_opened, &desk.sheet);
    if (first[0] && strcmp(first, line_opened) != 0) {
        strcat(line_opened, ",");
        strcat(line_opened, first);
    }
    kept_from_list(&kept, text, line_opened);
}

static void open_new(void)
{
    enum written answer;

    make_text(&desk.sheet.list, "");
    answer = kept_write_new(&kept, &desk.store);
    if (answer == NOT_WRITTEN)
        stop_failed(FAILED, "Can't write", kept.path);
    if (answer != WRITTEN)
        stop(EXISTS, "An earlier text of yours is kept in %s. Go on with it by --resume, or remove it.", kept.path);
}

/* The list that the sheet had under a digest. */
static void find_opened(struct list *list, const char *digits)
{
    struct claim claim;

    claim_read(&claim, digits);
    if (!store_had(&desk.store, &desk.sheet, claim.bytes, list))
        stop(DAMAGED, "%s was opened from a sheet that %s doesn't know.", kept.path, desk.store.log_name);
}

/* Lays the text that was kept over the sheet. What both have touched since it was first opened is what the planner is
   to look at, also where an earlier laying has listed it already. */
static void open_kept(const char *said)
{
    static struct list first_list;
    static struct laid since_first;
    char digits[DIGITS_MOST] = "";
    const char *first = strchr(said, ',') ? strchr(said, ',') + 1 : said;

    strncat(digits, said, strcspn(said, ","));
    find_opened(&opened, digits);
    find_opened(&first_list, first);
    if (!lay(&laid, &opened, &mine, &desk.sheet.list))
        stop(LUFFA_FULL, "Over the sheet as it is now the text has more than %d records. Take some out of %s.",
             LUFFA_SHEET_MOST, kept.path);
    if (lay(&since_first, &first_list, &laid.list, &desk.sheet.list))
        lay_add(&laid, &since_first);
    /* Where nothing of the text is left to save, and not because others have saved the same, it stays as it is. */
    if (laid.both_n > 0 && same_list(&laid.list, &desk.sheet.list))
        return;
    make_text(&laid.list, first);
    if (!kept_write(&kept, &desk.store))
        stop_failed(FAILED, "Can't write", kept.path);
}

/* Reads the text that was kept until it can be read; meanwhile nobody else has to wait. */
static void read_kept(char said[OPENED_MOST])
{
    if (!read_file())
        stop(FAILED, "No text of yours is kept in %s.", kept.path);
    while (!read_text(said, NULL))
        again_or_leave();
}

int edit(const char *file, const char *who, int resume)
{
    static struct steps steps;
    char said[OPENED_MOST];
    struct claim claim;
    int held;

    store_find(&desk.store, file);
    closing = " Nothing was saved.";
    kept_find(&kept, &desk.store, who);
    if (kept.why)
        stop(FAILED, "There is no folder for your text of %s: %s.", desk.store.given, kept.why);
    held = place_hold_text(&desk.store.place, who);
    if (held < 0)
        stop_failed(FAILED, "Can't lock", desk.store.place.lock_name);
    if (!held)
        stop(EXISTS, "%s is being edited already.", kept.path);
    if (resume)
        read_kept(said);
    /* One who may not save is told now, and not after the evening's work. */
    desk_open(&desk);
    store_leave(&desk.store);
    if (resume)
        open_kept(said);
    else
        open_new();
    store_rest(&desk.store);
    if (laid.both_n > 0)
        printf("Both have touched these. Yours stands in the text; look before you save it.\n");
    lay_print(stdout, &laid);
    if (laid.both_n > 0 && same_list(&laid.list, &desk.sheet.list))
        leave(DAMAGED);
    /* Only now, as what both have touched may stand in the list that was opened before. */
    opened = desk.sheet.list;

    edit_text();
    if (same_list(&opened, &mine)) {
        kept_remove(&kept, &desk.store);
        printf("nothing was changed\n");
        return printed(FAILED);
    }
    line_opened[strcspn(line_opened, ",")] = 0;
    claim_read(&claim, line_opened);
    going_on = " Your text is kept, and --resume goes on with it.";
    desk_open(&desk);
    steps_between(&steps, &desk.sheet.list, &mine);
    desk_save(&desk, &steps, &claim, who, &kept);
    kept_remove(&kept, &desk.store);
    return desk_answer(&desk);
}
