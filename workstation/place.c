/* The functions of place.h. */
#define _POSIX_C_SOURCE 200809L
#include "place.h"
#include "say.h"
#include "sheet.h"
#include <dirent.h>
#include <errno.h>
#include <fcntl.h>
#include <stdlib.h>
#include <string.h>
#include <sys/stat.h>
#include <unistd.h>

ssize_t read_all(int fd, uint8_t *bytes, size_t n)
{
    size_t done = 0;

    while (done < n) {
        ssize_t got = read(fd, bytes + done, n - done);
        if (got == 0)
            break;
        if (got < 0 && errno == EINTR)
            continue;
        if (got < 0)
            return -1;
        done += (size_t)got;
    }
    return (ssize_t)done;
}

int write_all(int fd, const uint8_t *bytes, size_t n)
{
    while (n > 0) {
        ssize_t put = write(fd, bytes, n);
        if (put < 0 && errno == EINTR)
            continue;
        if (put < 0)
            return -1;
        bytes += put;
        n -= (size_t)put;
    }
    return 0;
}

int place_open(struct place *place, const char *folder, const char *name)
{
    snprintf(place->name, sizeof place->name, "%s", name);
    snprintf(place->lock_name, sizeof place->lock_name, "%.*s.lock", PLACE_NAME_MOST, name);
    snprintf(place->new_name, sizeof place->new_name, "%.*s~%ld", PLACE_NAME_MOST, name, (long)getpid());
    snprintf(place->folder, sizeof place->folder, "%s", folder);
    place->lock = -1;
    place->locked = 0;
    place->directory = open(folder, O_RDONLY | O_DIRECTORY | O_CLOEXEC);
    return place->directory >= 0;
}

/* Makes the folders of a path, as far as they are missing; what is in the last is for its owner alone. */
static int make_folders(char *path)
{
    for (char *slash = strchr(path + 1, '/'); slash; slash = strchr(slash + 1, '/')) {
        *slash = 0;
        mkdir(path, 0777);
        *slash = '/';
    }
    return mkdir(path, 0700) == 0 || errno == EEXIST;
}

int place_open_own(struct place *place, const char *name)
{
    const char *state = getenv("XDG_STATE_HOME"), *home = getenv("HOME");
    char folder[PATH_MAX] = "";
    int len = 0;

    if (state && *state == '/')
        len = snprintf(folder, sizeof folder, "%s/plan", state);
    else if (home && *home == '/')
        len = snprintf(folder, sizeof folder, "%s/.local/state/plan", home);
    errno = ENOENT;
    return len > 0 && len < (int)sizeof folder && make_folders(folder) && place_open(place, folder, name);
}

void place_close(struct place *place)
{
    if (place->lock >= 0)
        close(place->lock);
    close(place->directory);
}

/* The lock is a file of its own, as the sheet's file is another one after each save: a lock on that would be lost by
   the rename. It is never removed, as one who waits for it would then hold a lock that nobody else sees. The system
   lets go of it when its holder ends, however that happens, or closes the file: so it stays open. Its first byte is the
   lock of saves, and every other one that of a planner's text. */
static int lock_byte(struct place *place, off_t at, short type, int command)
{
    struct flock byte = {.l_type = type, .l_whence = SEEK_SET, .l_start = at, .l_len = 1};

    if (place->lock < 0)
        place->lock = openat(place->directory, place->lock_name, O_RDWR | O_CREAT | O_CLOEXEC, 0666);
    if (place->lock < 0)
        return 0;
    while (fcntl(place->lock, command, &byte) != 0)
        if (errno != EINTR)
            return 0;
    return 1;
}

int place_try_lock(struct place *place)
{
    place->locked = lock_byte(place, 0, F_WRLCK, F_SETLKW);
    return place->locked;
}

void place_lock(struct place *place)
{
    if (!place_try_lock(place))
        stop_failed(FAILED, "Can't lock", place->lock_name);
}

void place_unlock(struct place *place)
{
    lock_byte(place, 0, F_UNLCK, F_SETLK);
    place->locked = 0;
}

/* Which byte, the name's digest says. */
int place_hold_text(struct place *place, const char *who)
{
    uint8_t digest[LUFFA_256_BYTES];

    luffa_digest(LUFFA_256, (const uint8_t *)who, strlen(who), digest, sizeof digest);
    if (lock_byte(place, (off_t)(1 + get_number(digest, 7)), F_WRLCK, F_SETLK))
        return 1;
    return errno == EACCES || errno == EAGAIN ? 0 : -1;
}

/* Only the holder of the lock writes such a file, and it has written none yet: those that are there are leftovers. */
int place_clean(const struct place *place)
{
    size_t len = strlen(place->name);
    int fd = openat(place->directory, ".", O_RDONLY | O_DIRECTORY);
    DIR *all = fd < 0 ? NULL : fdopendir(fd);
    struct dirent *one;

    if (!all)
        return 0;
    while ((one = readdir(all)) != NULL) {
        const char *number = one->d_name + len + 1;
        if (strncmp(one->d_name, place->name, len) == 0 && one->d_name[len] == '~' && *number &&
            number[strspn(number, "0123456789")] == 0)
            unlinkat(place->directory, one->d_name, 0);
    }
    closedir(all);
    return 1;
}

/* A file is on the disk before it takes its name, so that nobody finds a part of one under it. */
int place_put(const struct place *place, const char *name, mode_t mode, gid_t group, const uint8_t *bytes, size_t len)
{
    int fd = openat(place->directory, place->new_name, O_WRONLY | O_CREAT | O_EXCL | O_CLOEXEC, 0666), error;

    if (fd < 0)
        return 0;
    /* Only a member of the group can give it the file; else what was the group's is nobody's. */
    if (mode && fchown(fd, (uid_t)-1, group) != 0)
        mode &= (mode_t)~070;
    if ((!mode || fchmod(fd, mode) == 0) && write_all(fd, bytes, len) == 0 && fsync(fd) == 0 && close(fd) == 0 &&
        renameat(place->directory, place->new_name, place->directory, name) == 0)
        return 1;
    error = errno;
    unlinkat(place->directory, place->new_name, 0);
    errno = error;
    return 0;
}
