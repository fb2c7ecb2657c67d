/* Linked under the workstation by -Wl,--wrap=fcntl, where locks are taken and let go: stops the program by SIGSTOP before the call that
   the environment names, PAUSING=N, counted from 1. */
#define _POSIX_C_SOURCE 200809L
#include <fcntl.h>
#include <signal.h>
#include <stdlib.h>

int __real_fcntl(int fd, int command, struct flock *lock);
int __wrap_fcntl(int fd, int command, struct flock *lock);

int __wrap_fcntl(int fd, int command, struct flock *lock)
{
    static int calls;
    const char *at = getenv("PAUSING");

    if (at && ++calls == atoi(at))
        raise(SIGSTOP);
    return __real_fcntl(fd, command, lock);
}
