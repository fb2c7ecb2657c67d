/* A sheet in a file, with its lock and its log beside it: what store.h asks of a kind. log.h says when a save is
   accepted. */
#define _XOPEN_SOURCE 700 /* realpath */
#include "log.h"
#include "say.h"
#include <errno.h>
#include <fcntl.h>
#include <stdlib.h>
#include <string.h>
#include <sys/stat.h>
#include <time.h>
#include <unistd.h>

/* Names that could be taken for one of the files beside another sheet are refused: a log would be written over, or a
   sheet cleaned away. */
static void check_name(const char *name, const char *file)
{
    size_t len = strlen(name);

    if (len == 0 || strcmp(name, ".") == 0 || strcmp(name, "..") == 0 || strchr(name, '~') ||
        (len > 4 && strcmp(name + len - 4, ".log") == 0) || (len > 5 && strcmp(name + len - 5, ".lock") == 0))
        stop(USAGE, "%s: a sheet's name can't be empty or dots, end in .log or .lock, or have a ~ in it.", file);
    if (len > PLACE_NAME_MOST)
        stop(USAGE, "%s: the name is too long.", file);
}

/* A sheet may be reached through symbolic links: then the lock and the log are those beside the sheet itself, so that
   everybody holds the same ones. */
static void files_find(struct store *store, const char *file, int is_new)
{
    char *path = is_new ? strdup(file) : realpath(file, NULL), *slash, *name;

    store->given = strdup(file);
    if (!path || !store->given)
        stop_failed(FAILED, "Can't find", file);
    slash = strrchr(path, '/');
    name = slash ? slash + 1 : path;
    check_name(name, file);
    if (strlen(path) >= PATH_MAX)
        stop(USAGE, "%s: the name is too long.", file);
    store->name = strdup(name);
    store->log_name = malloc(strlen(name) + 5);
    if (!store->name || !store->log_name)
        stop_failed(FAILED, "Can't find", file);
    sprintf(store->log_name, "%s.log", name);
    if (slash)
        *slash = 0;
    if (!place_open(&store->place, slash == path ? "/" : slash ? path : ".", store->name))
        stop_failed(FAILED, "Can't open the folder of", file);
    free(path);
}

static void files_close(struct store *store)
{
    place_close(&store->place);
    free(store->given);
    free(store->name);
    free(store->log_name);
}

static int files_texts(struct store *store)
{
    (void)store;
    return 1;
}

static void files_read(struct store *store, struct sheet *sheet, struct luffa_mend_answer *spoiled)
{
    static uint8_t bytes[FILE_MOST + 1];
    int fd = openat(store->place.directory, store->name, O_RDONLY | O_CLOEXEC);
    struct stat about;
    const char *wrong;
    ssize_t len;

    if (fd < 0 || fstat(fd, &about) != 0)
        stop_failed(FAILED, "Can't open", store->name);
    /* A second name would go on naming the old file after a save, and have a lock of its own. */
    if (S_ISREG(about.st_mode) && about.st_nlink > 1)
        stop(DAMAGED, "%s isn't used: the same file has another name (a hard link), and its saves would part.",
             store->name);
    store->files.mode = about.st_mode & 0777;
    store->files.group = about.st_gid;
    /* One byte more than the longest sheet, so that a longer file is seen to be one. */
    len = read_all(fd, bytes, sizeof bytes);
    if (len < 0)
        stop_failed(FAILED, "Can't read", store->name);
    close(fd);
    wrong = sheet_from_bytes(sheet, "", bytes, (size_t)len, spoiled);
    if (wrong)
        stop(DAMAGED, "%s is damaged and isn't used: %s.", store->name, wrong);
}

/* The new sheet has its name on the disk before anybody is told. */
static void replace(struct store *store, const struct sheet *sheet)
{
    static uint8_t bytes[FILE_MOST];

    if (!place_put(&store->place, store->name, store->files.mode, store->files.group, bytes,
                   sheet_to_bytes(sheet, "", bytes)))
        stop_failed(FAILED, "Can't write", store->name);
    closing = "";
    if (fsync(store->place.directory) != 0)
        stop_failed(UNSURE,
                    "Saved, but it may not outlast a loss of power, as the system didn't confirm it:", store->name);
}

static void clean(const struct store *store)
{
    if (!place_clean(&store->place))
        stop_failed(FAILED, "Can't list the folder of", store->name);
}

static int files_make(struct store *store, const struct sheet *sheet)
{
    struct stat about;
    int there;

    place_lock(&store->place);
    clean(store);
    there = fstatat(store->place.directory, store->name, &about, AT_SYMLINK_NOFOLLOW) == 0;
    if (there && !S_ISREG(about.st_mode))
        stop(EXISTS, "%s exists already.", store->given);
    if (!there) {
        log_new(store);
        replace(store, sheet);
    }
    place_unlock(&store->place);
    return !there;
}

static void files_open(struct store *store, struct sheet *sheet, struct luffa_mend_answer *spoiled)
{
    place_lock(&store->place);
    files_read(store, sheet, spoiled);
    store->files.log = log_open(store, sheet);
    clean(store);
}

static void files_leave(struct store *store)
{
    close(store->files.log);
    place_unlock(&store->place);
}

static int files_save(struct store *store, struct sheet *next, struct entry *entry)
{
    uint64_t at = next->logged;

    entry->when = (int64_t)time(NULL);
    log_add(store->files.log, next, entry);
    replace(store, next);
    log_accepted(store->files.log, at);
    place_unlock(&store->place);
    return 1;
}

static void files_mend(struct store *store, const struct sheet *sheet)
{
    replace(store, sheet);
    files_leave(store);
}

static void files_look(struct store *store, struct sheet *sheet)
{
    place_lock(&store->place);
    files_read(store, sheet, NULL);
    store->files.log = log_open(store, sheet);
    files_leave(store);
}

/* A folder and a lock file are no burden to anybody. */
static void files_rest(struct store *store)
{
    (void)store;
}

static void files_enough(struct store *store)
{
    close(store->files.log);
}

static uint64_t files_ask(struct store *store, const char *id)
{
    (void)id;
    stop(USAGE, "%s is a file: its saves have no ids, and its log says which were accepted.", store->given);
}

const struct store_kind files_kind = {
    .texts_beside = 1,
    .find = files_find,
    .close = files_close,
    .texts = files_texts,
    .read = files_read,
    .look = files_look,
    .make = files_make,
    .open = files_open,
    .save = files_save,
    .mend = files_mend,
    .leave = files_leave,
    .rest = files_rest,
    .saves = log_read,
    .next = log_next,
    .enough = files_enough,
    .ask = files_ask,
};
