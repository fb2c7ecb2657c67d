/* Running the workstation: the functions of rivals.h. */
#define _POSIX_C_SOURCE 200809L
#include "rivals.h"
#include <dirent.h>
#include <signal.h>
#include <spawn.h>
#include <stdio.h>
#include <stdlib.h>
#include <string.h>
#include <sys/wait.h>
#include <time.h>
#include <unistd.h>

const struct doom unharmed;
char said_out[SAID_MOST], said_err[SAID_MOST];

int64_t now(void)
{
    struct timespec t;

    clock_gettime(CLOCK_MONOTONIC, &t);
    return INT64_C(1000000000) * t.tv_sec + t.tv_nsec;
}

void rest(int64_t nanoseconds)
{
    struct timespec t = {.tv_sec = nanoseconds / 1000000000, .tv_nsec = nanoseconds % 1000000000};

    nanosleep(&t, NULL);
}

/* Reads a pipe to its end, as far as there is room. */
static void drain(int pipe, char said[SAID_MOST])
{
    size_t len = 0;
    ssize_t got;

    while (len + 1 < SAID_MOST && (got = read(pipe, said + len, SAID_MOST - len - 1)) > 0)
        len += (size_t)got;
    said[len] = 0;
    close(pipe);
}

/* The environment of the workstation: the doom, and where its texts and its password are. */
static void surround(char *environment[], char variables[][PATH_ROOM + 32], const struct doom *doom)
{
    static const char *const names[] = {"XDG_STATE_HOME", "PGPASSFILE"};
    size_t n = 0;

    for (size_t i = 0; i < 2; i++)
        if (getenv(names[i]))
            snprintf(variables[n++], PATH_ROOM + 32, "%s=%s", names[i], getenv(names[i]));
    if (doom->variable[0])
        snprintf(variables[n++], PATH_ROOM + 32, "%s", doom->variable);
    if (doom->patience[0])
        snprintf(variables[n++], PATH_ROOM + 32, "%s", doom->patience);
    for (size_t i = 0; i < n; i++)
        environment[i] = variables[i];
    environment[n] = NULL;
}

/* What it prints on standard error is short, and waits in its pipe for the rest. */
int run(char *const *arguments, const struct doom *doom, int64_t kill_after)
{
    static char variables[4][PATH_ROOM + 32];
    char *environment[5];
    posix_spawn_file_actions_t actions;
    int ends[2][2], status;
    pid_t child;

    surround(environment, variables, doom);
    if (pipe(ends[0]) != 0 || pipe(ends[1]) != 0)
        return -100;
    posix_spawn_file_actions_init(&actions);
    for (int i = 0; i < 2; i++) {
        posix_spawn_file_actions_adddup2(&actions, ends[i][1], i + 1);
        posix_spawn_file_actions_addclose(&actions, ends[i][0]);
        posix_spawn_file_actions_addclose(&actions, ends[i][1]);
    }
    status = posix_spawn(&child, arguments[0], &actions, NULL, arguments, environment);
    posix_spawn_file_actions_destroy(&actions);
    close(ends[0][1]);
    close(ends[1][1]);
    if (status != 0)
        return -101;
    if (kill_after >= 0) {
        rest(kill_after);
        kill(child, SIGKILL);
    }
    drain(ends[0][0], said_out);
    drain(ends[1][0], said_err);
    if (waitpid(child, &status, 0) != child)
        return -102;
    if (WIFSIGNALED(status))
        return WTERMSIG(status) == SIGKILL && (doom->variable[0] || kill_after >= 0) ? KILLED : -103;
    return WEXITSTATUS(status);
}

int told_digest(const char *said, size_t code, uint8_t digest[DIGEST_MOST], char digits[DIGITS_MOST])
{
    static const size_t bytes[] = {0, LUFFA_224_BYTES, LUFFA_256_BYTES, LUFFA_384_BYTES, LUFFA_512_BYTES};
    size_t len = 2 * bytes[code];
    unsigned byte;

    memset(digest, 0, DIGEST_MOST);
    do {
        said = strstr(said, "digest ");
        if (!said)
            return 0;
        said += strlen("digest ");
    } while (strspn(said, "0123456789abcdef") != len);
    memcpy(digits, said, len);
    digits[len] = 0;
    for (size_t i = 0; i < bytes[code] && sscanf(digits + 2 * i, "%2x", &byte) == 1; i++)
        digest[i] = (uint8_t)byte;
    return 1;
}

uint8_t *whole(const char *file, const char *end, size_t *len)
{
    char path[PATH_ROOM + 8];
    uint8_t *bytes = NULL;
    FILE *f;

    snprintf(path, sizeof path, "%s%s", file, end);
    *len = 0;
    if (!(f = fopen(path, "rb")))
        return NULL;
    for (size_t got = 1; got > 0; *len += got) {
        if (!(bytes = realloc(bytes, *len + 65536)))
            exit(2);
        got = fread(bytes + *len, 1, 65536, f);
    }
    fclose(f);
    return bytes;
}

int write_whole(const char *file, const void *bytes, size_t n)
{
    FILE *to = fopen(file, "wb");
    int written = to && fwrite(bytes, 1, n, to) == n;

    return to && fclose(to) == 0 && written;
}

int find_kept(const char *folder, const char *who, char path[PATH_ROOM])
{
    char end[32];
    DIR *all = opendir(folder);
    struct dirent *one;
    int found = 0;

    snprintf(end, sizeof end, "~%s.csv", who);
    while (all && !found && (one = readdir(all)) != NULL) {
        size_t len = strlen(one->d_name), tail = strlen(end);
        found = len > tail && strcmp(one->d_name + len - tail, end) == 0 &&
                snprintf(path, PATH_ROOM, "%s/%s", folder, one->d_name) < PATH_ROOM;
    }
    if (all)
        closedir(all);
    return found;
}
