/*
 * Linked under the workstation for its trial, by gcc -Wl,--wrap: counts the calls that change something
 * on the disk, from 1, and dies by SIGKILL at the one that the environment names, DYING="STEP HOW":
 *   before   before the call
 *   half     in the middle: of a write, half of its bytes are written; else as before
 *   after    after the call
 *   power    before the call, and of every file that was written what was never fsynced is cut off, as a
 *            loss of power may do
 * DYING=tell dies nowhere, and says on standard error which calls were made.
 */
#define _POSIX_C_SOURCE 200809L
#include <signal.h>
#include <stdio.h>
#include <stdlib.h>
#include <string.h>
#include <sys/stat.h>
#include <sys/types.h>
#include <unistd.h>

ssize_t __real_write(int fd, const void *bytes, size_t n);
int __real_ftruncate(int fd, off_t len);
int __real_fsync(int fd);
int __real_close(int fd);
int __real_renameat(int from_fd, const char *from, int to_fd, const char *to);
int __real_unlinkat(int fd, const char *name, int flags);

/* Files that were written since their last fsync, and the length that they had then. `copy` names the file
   also after it was closed. */
static struct {
    int fd, copy;
    off_t len;
} unsynced[8];
static int unsynced_n, steps;

static void written(int fd)
{
    struct stat about;

    for (int i = 0; i < unsynced_n; i++)
        if (unsynced[i].fd == fd)
            return;
    if (unsynced_n == 8 || fstat(fd, &about) != 0)
        abort();
    unsynced[unsynced_n].fd = fd;
    unsynced[unsynced_n].copy = dup(fd);
    unsynced[unsynced_n++].len = about.st_size;
}

static void die(void)
{
    raise(SIGKILL);
}

/* Counts a step and dies where it is its turn. Gives what is still to be done: "half" or "after". */
static const char *step(const char *name)
{
    const char *dying = getenv("DYING");
    char how[8] = "";
    int at = 0;

    if (!dying)
        return "";
    if (strcmp(dying, "tell") == 0) {
        fprintf(stderr, "%s\n", name);
        return "";
    }
    if (++steps != (sscanf(dying, "%d %7s", &at, how) == 2 ? at : 0))
        return "";
    if (strcmp(how, "after") == 0)
        return "after";
    if (strcmp(how, "half") == 0 && strcmp(name, "write") == 0)
        return "half";
    if (strcmp(how, "power") == 0)
        for (int i = 0; i < unsynced_n; i++)
            if (__real_ftruncate(unsynced[i].copy, unsynced[i].len) != 0)
                abort();
    die();
    return "";
}

static int after(const char *how, int answer)
{
    if (*how)
        die();
    return answer;
}

ssize_t __wrap_write(int fd, const void *bytes, size_t n)
{
    const char *how = step("write");
    ssize_t answer;

    written(fd);
    answer = __real_write(fd, bytes, strcmp(how, "half") == 0 ? n / 2 : n);
    after(how, 0);
    return answer;
}

int __wrap_ftruncate(int fd, off_t len)
{
    const char *how = step("ftruncate");

    return after(how, __real_ftruncate(fd, len));
}

int __wrap_fsync(int fd)
{
    struct stat about;
    const char *how = step(fstat(fd, &about) == 0 && S_ISDIR(about.st_mode) ? "fsync folder" : "fsync");
    int answer = __real_fsync(fd);

    for (int i = 0; i < unsynced_n; i++)
        if (unsynced[i].fd == fd) {
            __real_close(unsynced[i].copy);
            unsynced[i--] = unsynced[--unsynced_n];
        }
    return after(how, answer);
}

/* No step of its own: nothing on the disk changes. The number may soon name another file. */
int __wrap_close(int fd)
{
    for (int i = 0; i < unsynced_n; i++)
        if (unsynced[i].fd == fd)
            unsynced[i].fd = -1;
    return __real_close(fd);
}

int __wrap_renameat(int from_fd, const char *from, int to_fd, const char *to)
{
    const char *how = step("rename");

    return after(how, __real_renameat(from_fd, from, to_fd, to));
}

int __wrap_unlinkat(int fd, const char *name, int flags)
{
    const char *how = step("unlink");

    return after(how, __real_unlinkat(fd, name, flags));
}
