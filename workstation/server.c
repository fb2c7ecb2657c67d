/* The functions of server.h. */
#define _POSIX_C_SOURCE 200809L
#include "say.h"
#include "sheet.h"
#include <stdlib.h>
#include <string.h>

#ifdef PLAN_POSTGRESQL
#include "server.h"

void values_bytes(struct values *values, const void *bytes, size_t len)
{
    values->value[values->n] = bytes;
    values->len[values->n] = (int)len;
    values->binary[values->n++] = 1;
}

void values_text(struct values *values, const char *text)
{
    values_bytes(values, text, strlen(text));
}

void values_number(struct values *values, size_t bytes, int64_t number)
{
    put_number(values->numbers[values->n], bytes, (uint64_t)number);
    values_bytes(values, values->numbers[values->n], bytes);
}

/* Lines become one, without a full stop at the end. */
static void copy_words(char *words, size_t most, const char *said)
{
    size_t len = 0;

    for (; said && *said && len + 3 < most; said++)
        if (*said != '\n')
            words[len++] = *said == '\t' ? ' ' : *said;
        else if (said[1])
            len += (size_t)snprintf(words + len, most - len - 1, said[1] == '\t' ? ";" : "; ");
    while (len > 0 && strchr(". ?", words[len - 1]))
        len--;
    words[len] = 0;
}

/* Keeps what was said of a failure. */
static void note(struct server *server, const char *said, const char *state)
{
    snprintf(server->state, sizeof server->state, "%s", state ? state : "");
    copy_words(server->words, sizeof server->words, said);
}

/* What the server remarks on its way isn't for the planner; what it warns of may be. */
static void on_remark(void *connected, const PGresult *remark)
{
    struct server *server = connected;
    const char *severity = PQresultErrorField(remark, PG_DIAG_SEVERITY_NONLOCALIZED);

    if (server->committing && severity && strcmp(severity, "WARNING") == 0)
        copy_words(server->warning, sizeof server->warning, PQresultErrorField(remark, PG_DIAG_MESSAGE_PRIMARY));
}

/* What libpq says of a name that it can't read may have the password in it, and isn't said. */
void server_find(struct server *server, const struct url *url)
{
    char *said = NULL;
    PQconninfoOption *read = PQconninfoParse(url->uri, &said);

    PQfreemem(said);
    if (!read)
        stop(USAGE, "The name can't be understood: one of its parts isn't as libpq takes it.");
    PQconninfoFree(read);
    server->uri = url->uri;
    server->shown = url->shown;
}

/* However the program ends, the server is told. */
static struct server *used;
static void leave_used(void)
{
    if (used)
        server_leave(used);
}

/* The parameters of a name come after ours, and count. Ours bound how long a server that is gone without a word is
   waited for. */
int server_connect(struct server *server)
{
    static const char *const keywords[] = {"connect_timeout",
                                           "tcp_user_timeout",
                                           "keepalives_idle",
                                           "keepalives_interval",
                                           "keepalives_count",
                                           "fallback_application_name",
                                           "dbname",
                                           "client_encoding",
                                           NULL};
    static int registered;
    const char *const values[] = {"10", "30000", "10", "5", "4", "plan", server->uri, "UTF8", NULL};

    if (server->connection && (PQstatus(server->connection) == CONNECTION_OK || server->begun))
        return 1;
    server_leave(server);
    if (!registered)
        registered = atexit(leave_used) == 0;
    used = server;
    server->connection = PQconnectdbParams(keywords, values, 1);
    if (server->connection && PQstatus(server->connection) == CONNECTION_OK) {
        PQsetNoticeReceiver(server->connection, on_remark, server);
        return 1;
    }
    note(server, server->connection ? PQerrorMessage(server->connection) : "out of memory", "");
    return 0;
}

void server_leave(struct server *server)
{
    PQfinish(server->connection);
    server->connection = NULL;
    server->begun = 0;
    used = NULL;
}

/* The one place at which statements are sent. */
static PGresult *make(struct server *server, const char *statement, const struct values *values)
{
    static const struct values none;

    values = values ? values : &none;
    return PQexecParams(server->connection, statement, values->n, NULL, values->value, values->len, values->binary, 1);
}

static int done(const PGresult *result)
{
    return PQresultStatus(result) == PGRES_COMMAND_OK || PQresultStatus(result) == PGRES_TUPLES_OK;
}

static void note_result(struct server *server, const PGresult *result)
{
    const char *said = PQresultErrorField(result, PG_DIAG_MESSAGE_PRIMARY);

    note(server, said ? said : PQerrorMessage(server->connection), PQresultErrorField(result, PG_DIAG_SQLSTATE));
}

PGresult *server_try(struct server *server, const char *statement, const struct values *values)
{
    PGresult *result = server->connection ? make(server, statement, values) : NULL;

    if (result && done(result))
        return result;
    if (server->connection)
        note_result(server, result);
    PQclear(result);
    return NULL;
}

/* A database in which `plan init` wasn't run has no schema, or no tables in it. */
int server_has_no_tables(const struct server *server)
{
    return strcmp(server->state, "3F000") == 0 || strcmp(server->state, "42P01") == 0;
}

void server_stop(const struct server *server, const char *doing)
{
    if (server_has_no_tables(server))
        stop(FAILED, "%s %s: the database isn't made for sheets yet; `plan init` does it.", doing, server->shown);
    stop(FAILED, "%s %s: %s.", doing, server->shown, server->words);
}

PGresult *server_ask(struct server *server, const char *doing, const char *statement, const struct values *values)
{
    PGresult *result = server_connect(server) ? server_try(server, statement, values) : NULL;

    if (!result)
        server_stop(server, doing);
    return result;
}

void server_do(struct server *server, const char *doing, const char *statement, const struct values *values)
{
    PQclear(server_ask(server, doing, statement, values));
}

void server_begin_reading(struct server *server, const char *doing)
{
    server_do(server, doing, "BEGIN ISOLATION LEVEL REPEATABLE READ READ ONLY", NULL);
    server->begun = 1;
}

static int tried(struct server *server, const char *statement)
{
    PGresult *result = server_try(server, statement, NULL);
    int made = result != NULL;

    PQclear(result);
    return made;
}

/* It doesn't ask to write: a database that is set to be read only, as before it is moved, stays so. A saver holds the
   lock for milliseconds: one of whom nothing is heard for ten seconds is gone. A server that was told not to wait for
   its disk waits for it here. */
int server_try_begin(struct server *server)
{
    return server_connect(server) && tried(server, "BEGIN ISOLATION LEVEL READ COMMITTED") && (server->begun = 1) &&
           tried(server, "SELECT set_config('idle_in_transaction_session_timeout', '10s', true), "
                         "set_config('lock_timeout', '60s', true), set_config('synchronous_commit', "
                         "CASE current_setting('synchronous_commit') WHEN 'off' THEN 'on' "
                         "ELSE current_setting('synchronous_commit') END, true)");
}

void server_begin(struct server *server, const char *doing)
{
    if (!server_try_begin(server))
        server_stop(server, doing);
}

/* An error that the server tells, over a connection that goes on, has undone everything. All else, as that the server
   is being shut down, leaves it open. */
enum commit server_commit(struct server *server)
{
    enum commit answer = LOST;
    const char *severity;
    PGresult *result;

    server->begun = 0;
    server->warning[0] = 0;
    server->committing = 1;
    result = make(server, "COMMIT", NULL);
    server->committing = 0;
    severity = PQresultErrorField(result, PG_DIAG_SEVERITY_NONLOCALIZED);
    if (result && done(result)) {
        answer = DONE;
        if (strcmp(PQcmdStatus(result), "COMMIT") != 0) {
            note(server, "the server has undone it", "");
            answer = REFUSED;
        }
    } else {
        if (PQstatus(server->connection) == CONNECTION_OK && severity && strcmp(severity, "ERROR") == 0)
            answer = REFUSED;
        note_result(server, result);
    }
    PQclear(result);
    return answer;
}

/* Where the connection was lost, the server does it. */
void server_roll_back(struct server *server)
{
    PQclear(server_try(server, "ROLLBACK", NULL));
    server->begun = 0;
}

const uint8_t *cell(const PGresult *result, int row, int column, size_t *len)
{
    *len = (size_t)PQgetlength(result, row, column);
    return (const uint8_t *)PQgetvalue(result, row, column);
}

/* Shorter numbers have their sign spread to 64 bits. */
int64_t cell_number(const PGresult *result, int row, int column)
{
    size_t len;
    const uint8_t *bytes = cell(result, row, column, &len);
    uint64_t number = get_number(bytes, len);

    if (len > 0 && len < 8 && bytes[0] & 0x80)
        number |= UINT64_MAX << (8 * len);
    return (int64_t)number;
}

#endif
