/*
 * Linked under the workstation for its trial and its tests over PostgreSQL, by gcc -Wl,--wrap=PQexecParams: counts the
 * statements that are sent to the server, from 1, and at the one that the environment names, LOSING="K HOW", the saver
 * dies by SIGKILL, stops, or loses its connection:
 *   before      dies before the statement is sent
 *   sent        sends it whole, and dies
 *   after       dies after its answer was read
 *   stop        stops by SIGSTOP before it is sent, and goes on when somebody lets it
 *   cut         loses the connection before it is sent
 *   cut-sent    sends it whole, and loses the connection with the answer unread
 *   cut-after   loses the connection after its answer was read
 *   cut-late    loses the connection with the statement still on its way, which reaches the server 0.3 s later
 * Several may be named, one after the other: LOSING="8 cut-sent 9 cut". LOSING=tell does nothing of it, and says each
 * statement on standard error, with its number.
 */
#define _POSIX_C_SOURCE 200809L
#include <libpq-fe.h>
#include <signal.h>
#include <stdio.h>
#include <stdlib.h>
#include <string.h>
#include <sys/socket.h>
#include <time.h>
#include <unistd.h>

PGresult *__real_PQexecParams(PGconn *connection, const char *statement, int n, const Oid *types,
                              const char *const *values, const int *lengths, const int *formats, int format);
PGresult *__wrap_PQexecParams(PGconn *connection, const char *statement, int n, const Oid *types,
                              const char *const *values, const int *lengths, const int *formats, int format);

enum { HOW = 16 };

static int statements;

/* A name that is misspelt would try nothing. */
static void check_known(const char *how)
{
    static const char *const known[] = {"before", "sent", "after", "stop", "cut", "cut-sent", "cut-after", "cut-late"};
    size_t i = 0;

    while (strcmp(how, known[i]) != 0)
        if (++i == sizeof known / sizeof *known)
            abort();
}

/* What is to happen at this statement, or nothing. */
static void look(char how[HOW], const char *statement)
{
    const char *losing = getenv("LOSING");
    int at, read;

    how[0] = 0;
    statements++;
    if (losing && strcmp(losing, "tell") == 0)
        fprintf(stderr, "statement %d: %.*s\n", statements, (int)strcspn(statement, "\n"), statement);
    for (; losing && sscanf(losing, "%d %15s%n", &at, how, &read) == 2; losing += read) {
        check_known(how);
        if (at == statements)
            return;
    }
    how[0] = 0;
}

static void die_if(const char *how, const char *wanted)
{
    if (strcmp(how, wanted) == 0)
        raise(SIGKILL);
}

/* A socket that nobody is at the other end of takes the place of the connection's. So what the server has answered
   meanwhile is lost too, which a shutdown would still let be read. */
static void cut(PGconn *connection)
{
    int ends[2];

    if (PQsocket(connection) < 0)
        return;
    if (socketpair(AF_UNIX, SOCK_STREAM, 0, ends) != 0 || dup2(ends[0], PQsocket(connection)) < 0)
        abort();
    close(ends[0]);
    close(ends[1]);
}

static void cut_if(PGconn *connection, const char *how, const char *wanted)
{
    if (strcmp(how, wanted) == 0)
        cut(connection);
}

/* Another process has the connection too, for as long as the statement is on its way. It holds nothing else open, as
   who started the saver waits for its words to end. */
static void be_late(void)
{
    struct timespec way = {.tv_nsec = 300000000};

    close(STDOUT_FILENO);
    close(STDERR_FILENO);
    nanosleep(&way, NULL);
}

static int send_whole(PGconn *connection, const char *statement, int n, const Oid *types, const char *const *values,
                      const int *lengths, const int *formats, int format)
{
    int sent = PQsendQueryParams(connection, statement, n, types, values, lengths, formats, format);

    while (sent && PQflush(connection) == 1)
        ;
    return sent;
}

/* The last result, as PQexecParams gives it. */
static PGresult *last_result(PGconn *connection)
{
    PGresult *last = NULL, *next;

    while ((next = PQgetResult(connection))) {
        PQclear(last);
        last = next;
    }
    return last;
}

PGresult *__wrap_PQexecParams(PGconn *connection, const char *statement, int n, const Oid *types,
                              const char *const *values, const int *lengths, const int *formats, int format)
{
    char how[HOW];
    PGresult *result;

    look(how, statement);
    die_if(how, "before");
    if (strcmp(how, "stop") == 0)
        raise(SIGSTOP);
    if (strcmp(how, "cut-late") == 0 && fork() == 0) {
        be_late();
        send_whole(connection, statement, n, types, values, lengths, formats, format);
        _exit(0);
    }
    cut_if(connection, how, "cut-late");
    cut_if(connection, how, "cut");
    if (strcmp(how, "sent") == 0 || strcmp(how, "cut-sent") == 0) {
        if (!send_whole(connection, statement, n, types, values, lengths, formats, format))
            return NULL;
        die_if(how, "sent");
        cut(connection);
        return last_result(connection);
    }
    result = __real_PQexecParams(connection, statement, n, types, values, lengths, formats, format);
    die_if(how, "after");
    cut_if(connection, how, "cut-after");
    return result;
}
