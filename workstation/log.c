/* The functions of log.h. */
#define _POSIX_C_SOURCE 200809L
#include "log.h"
#include "say.h"
#include <fcntl.h>
#include <string.h>
#include <sys/stat.h>
#include <unistd.h>

/* A log without a sheet is that of a sheet that was taken away, unless nothing is in it: then a `new` was killed
   before its sheet had its name. */
void log_new(const struct store *store)
{
    int log = openat(store->place.directory, store->log_name, O_RDWR | O_CREAT | O_CLOEXEC, 0666);
    struct stat about;

    if (log < 0 || fstat(log, &about) != 0)
        stop_failed(FAILED, "Can't make", store->log_name);
    if (about.st_size != 0)
        stop(EXISTS, "%s is there, the log of a sheet that isn't. Put the sheet back, or take its log away too.",
             store->log_name);
    close(log);
}

/* Reads n bytes of the log from a place on. */
static void read_at(const struct store *store, int log, uint64_t from, uint8_t *bytes, size_t n)
{
    if (lseek(log, (off_t)from, SEEK_SET) < 0 || read_all(log, bytes, n) != (ssize_t)n)
        stop_failed(FAILED, "Can't read", store->log_name);
}

/* What lies behind the entries that count is what a killed saver has left: its entry, or a part of it, or bytes that
   never came to the disk. An entry that goes on from this sheet and was accepted, or has more behind it, is a save that
   the sheet lacks. */
static void check_end(const struct store *store, const struct sheet *sheet, int log)
{
    uint8_t head[ENTRY_HEAD], last[DIGEST_MOST];
    struct stat about;
    uint64_t len, behind;

    if (fstat(log, &about) != 0)
        stop_failed(FAILED, "Can't open", store->log_name);
    len = (uint64_t)about.st_size;
    if (len < sheet->logged)
        stop(DAMAGED, "%s is cut off: it has fewer saves than the sheet.", store->log_name);
    behind = len - sheet->logged;
    if (behind >= ENTRY_HEAD) {
        read_at(store, log, sheet->logged, head, sizeof head);
        if (memcmp(head + 40, sheet->digest, DIGEST_MOST) == 0 &&
            (get_number(head + 36, 4) != 0 || behind > entry_bytes(get_number(head + 32, 4))))
            stop(DAMAGED, "%s is older than %s, which has saves that it lacks.", store->name, store->log_name);
    }
    if (sheet->logged > 0) {
        if (sheet->logged < entry_bytes(0))
            stop(DAMAGED, "%s counts saves that no log has.", store->name);
        read_at(store, log, sheet->logged - DIGEST_MOST, last, sizeof last);
        if (memcmp(last, sheet->digest, DIGEST_MOST) != 0)
            stop(DAMAGED, "The last save in %s didn't give this sheet.", store->log_name);
    }
}

int log_open(const struct store *store, const struct sheet *sheet)
{
    int log = openat(store->place.directory, store->log_name, O_RDWR | O_CLOEXEC);

    if (log < 0)
        stop_failed(FAILED, "Can't open", store->log_name);
    check_end(store, sheet, log);
    return log;
}

void log_add(int log, struct sheet *sheet, const struct entry *entry)
{
    static uint8_t bytes[ENTRY_MOST];
    size_t len = entry_to_bytes(entry, bytes);

    if (ftruncate(log, (off_t)sheet->logged) != 0 || lseek(log, (off_t)sheet->logged, SEEK_SET) < 0 ||
        write_all(log, bytes, len) != 0 || fsync(log) != 0)
        stop_failed(FAILED, "Can't write", "the log");
    sheet->saves++;
    sheet->logged += len;
}

/* The save is accepted already: where the mark can't be written, it is missing. */
void log_accepted(int log, uint64_t at)
{
    static const uint8_t mark[4] = {0, 0, 0, 1};
    ssize_t put = pwrite(log, mark, sizeof mark, (off_t)(at + 36));

    (void)put;
    close(log);
}

void log_read(struct store *store, const struct sheet *sheet)
{
    if (sheet->saves == 0 && sheet->logged != 0)
        stop(DAMAGED, "%s counts no saves, and the bytes of some.", store->name);
    store->files.left = sheet->logged;
    store->files.log = openat(store->place.directory, store->log_name, O_RDONLY | O_CLOEXEC);
    if (store->files.log < 0)
        stop_failed(FAILED, "Can't open", store->log_name);
}

/* Reads the next n bytes of the entries that count. */
static void read_next(struct store *store, uint8_t *bytes, size_t n)
{
    ssize_t got = n > store->files.left ? 0 : read_all(store->files.log, bytes, n);

    if (got < 0)
        stop_failed(FAILED, "Can't read", "the log");
    if (got != (ssize_t)n)
        stop(DAMAGED, "The log is cut off: it has fewer saves than the sheet.");
    store->files.left -= n;
}

void log_next(struct store *store, struct entry *entry, int is_last)
{
    static uint8_t bytes[ENTRY_MOST];

    read_next(store, bytes, ENTRY_HEAD);
    entry_head_from_bytes(entry, bytes);
    if (entry->steps.n == 0 || entry->steps.n > STEPS_MOST)
        stop(DAMAGED, "The log is damaged: a save has no steps, or more than a sheet has records.");
    read_next(store, bytes, entry_bytes(entry->steps.n) - ENTRY_HEAD);
    entry_rest_from_bytes(entry, bytes);
    if (is_last && store->files.left != 0)
        stop(DAMAGED, "The log is damaged: its saves aren't as long as the sheet says.");
}
