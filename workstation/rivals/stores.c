/* Where the sheet of a trial is kept, and what differs by it: the functions of rivals.h. */
#define _POSIX_C_SOURCE 200809L
#include "rivals.h"
#include "server.h"
#include <stdio.h>
#include <stdlib.h>
#include <string.h>
#include <sys/stat.h>

/* At a step on the disk: before it, in its middle, after it, or with the power going. (dying.c) */
static void draw_disk(struct doom *doom, int r, long k)
{
    static const char *const how[] = {"before", "half", "after", "power"};

    (void)r;
    (void)k;
    doom->patience[0] = 0;
    snprintf(doom->variable, sizeof doom->variable, "DYING=%d %s", (int)any(8) + 1, how[any(4)]);
}

static int stays_by_file(const char *name)
{
    return strcmp(name, "wells") == 0 || strcmp(name, "wells.lock") == 0 || strcmp(name, "wells.log") == 0;
}

const struct store *file_store(const char *folder)
{
    static struct store store = {.parts = "step", .one_in = 10, .draw = draw_disk, .stays = stays_by_file};

    snprintf(store.folder, sizeof store.folder, "%s/shared", folder);
    snprintf(store.sheet, sizeof store.sheet, "%.*s/wells", PATH_ROOM - 8, store.folder);
    memcpy(store.file, store.sheet, sizeof store.file);
    return mkdir(store.folder, 0777) == 0 ? &store : NULL;
}

/* Which statement of a save is its COMMIT. */
static int commit;

static int learn(const char *said)
{
    int at;

    for (const char *line = said; line; line = strchr(line, '\n'), line = line ? line + 1 : NULL)
        if (sscanf(line, "statement %d: ", &at) == 1 && strncmp(strchr(line, ':'), ": COMMIT", 8) == 0)
            commit = at;
    return commit > 1;
}

/* What may happen to a saver's connection (losing.c): at the commit or at a statement before it; once, twice, so that
   the first asking is lost too, or for longer than it has patience, so that it can't ask at all. */
enum place { COMMIT, EARLIER, DISK };
static const struct way {
    enum place place;
    const char *how;
    int again;
} ways[] = {
    {COMMIT, "cut-sent", 0},  {EARLIER, "cut", 0},   {COMMIT, "cut-sent", 100}, {EARLIER, "sent", 0},
    {COMMIT, "cut-late", 0},  {DISK, "", 0},         {COMMIT, "cut", 100},      {EARLIER, "cut-after", 0},
    {COMMIT, "cut", 0},       {COMMIT, "sent", 0},   {EARLIER, "after", 0},     {COMMIT, "cut-sent", 1},
    {EARLIER, "cut-sent", 0}, {COMMIT, "after", 0},  {EARLIER, "before", 0},    {COMMIT, "cut-late", 1},
    {COMMIT, "cut-after", 0}, {COMMIT, "before", 0},
};

/* They come in rounds, with each rival from another one on, so that each comes up also in a short trial. */
static void draw_connection(struct doom *doom, int r, long k)
{
    const struct way *way = &ways[(size_t)(r + k) % (sizeof ways / sizeof *ways)];
    int at = way->place == COMMIT ? commit : 1 + (int)any((size_t)commit - 1), len;

    if (way->place == DISK) {
        draw_disk(doom, r, k);
        return;
    }
    len = snprintf(doom->variable, sizeof doom->variable, "LOSING=%d %s", at, way->how);
    for (int i = 1; i <= way->again; i++)
        len += snprintf(doom->variable + len, sizeof doom->variable - (size_t)len, " %d cut", at + i);
    snprintf(doom->patience, sizeof doom->patience, "%s", way->again > 1 ? "PLAN_PATIENCE=0.5" : "");
}

static int stays_by_database(const char *name)
{
    size_t len = strlen(name);

    return strncmp(name, "wells@", 6) == 0 && len > 5 && strcmp(name + len - 5, ".lock") == 0;
}

const struct store *database_store(const char *folder, const char *database)
{
    static struct store store = {.rows = "wells",
                                 .parts = "statement",
                                 .one_in = 6,
                                 .draw = draw_connection,
                                 .stays = stays_by_database,
                                 .learn = learn,
                                 .disturb = server_disturb,
                                 .gather = server_gather};
    const char *state = getenv("XDG_STATE_HOME");

    if (!state)
        return NULL;
    snprintf(store.folder, sizeof store.folder, "%s/plan", state);
    snprintf(store.sheet, sizeof store.sheet, "%s/wells", database);
    snprintf(store.file, sizeof store.file, "%s/rows", folder);
    return &store;
}
