/* The functions of server.h. */
#define _POSIX_C_SOURCE 200809L
#include "server.h"
#include <stdio.h>
#include <stdlib.h>
#include <string.h>
#include <unistd.h>

enum { ORDERS = 3, ANSWERS = 4, SAVES_A_KILL = 400, MILLISECOND = 1000000 };

/* Digests and names have zeros behind them in the files. */
static const char in_sheet[] =
    "SELECT encode('LufSheet'::bytea || int4send(2) || int4send(code) || int4send(record_count) || int4send(0) "
    "|| int8send(saves) || int8send(0) || substr(digest || zeros, 1, 64) || seal || records || marks, 'hex') "
    "FROM plan.sheets, decode(repeat('00', 64), 'hex') AS zeros";
static const char in_log[] =
    "SELECT encode(substr(convert_to(who, 'UTF8') || zeros, 1, 24) || int8send(extract(epoch FROM at)::bigint) "
    "|| int4send(octet_length(steps) / 48) || int4send(0) || substr(digest_before || zeros, 1, 64) || steps "
    "|| substr(digest_after || zeros, 1, 64), 'hex') "
    "FROM plan.saves, decode(repeat('00', 64), 'hex') AS zeros ORDER BY number";
static const char in_ids[] =
    "SELECT encode(uuid_send(id) || int8send(number) || seal, 'hex') FROM plan.saves ORDER BY number";

/* Rows that the files above couldn't tell from right ones. */
static const char strange[] =
    "SELECT count(*) FROM plan.saves JOIN plan.sheets ON name = sheet, "
    "LATERAL (SELECT (ARRAY[28, 32, 48, 64])[code] AS len) AS code_of WHERE octet_length(digest_before) <> len "
    "OR octet_length(digest_after) <> len OR octet_length(digest) <> len OR octet_length(steps) % 48 <> 0 "
    "OR octet_length(who) > 24 OR at <> date_trunc('second', at)";
static const char open_ones[] = "SELECT count(*) FROM pg_stat_activity WHERE application_name = 'plan'";

/* One of them, drawn by lot. */
static const char terminate[] =
    "SELECT count(*) FILTER (WHERE pg_terminate_backend(pid)) FROM (SELECT pid FROM pg_stat_activity "
    "WHERE application_name = 'plan' ORDER BY random() LIMIT 1) AS one";

static FILE *ask(const char *query)
{
    char command[2048];

    snprintf(command, sizeof command, "psql -XqAt -v ON_ERROR_STOP=1 -c \"%s\" 2>/dev/null", query);
    fflush(NULL);
    return popen(command, "r");
}

/* A number that is asked for, or -1. */
static long ask_number(const char *query)
{
    FILE *from = ask(query);
    long n = -1;

    if (!from || fscanf(from, "%ld", &n) != 1)
        n = -1;
    return from && pclose(from) == 0 ? n : -1;
}

/* Writes to a file what is asked for, which comes as hexadecimal digits. Gives 0 where it can't. */
static int fetch(const char *query, const char *file, const char *end)
{
    char path[PATH_ROOM + 8];
    FILE *from = ask(query), *to;
    unsigned byte;

    snprintf(path, sizeof path, "%s%s", file, end);
    to = fopen(path, "wb");
    while (from && to && fscanf(from, "%2x", &byte) == 1)
        putc((int)byte, to);
    return from && feof(from) && pclose(from) == 0 && to && fclose(to) == 0;
}

/* Gives an order, and waits until it is done. */
static int order(const char *words)
{
    char done;

    if (write(ORDERS, words, strlen(words)) != (ssize_t)strlen(words))
        return 0;
    do
        if (read(ANSWERS, &done, 1) != 1)
            return 0;
    while (done != '\n');
    return 1;
}

/* Kills the server, and starts it again after a while. */
static int kill_server(struct shared *shared)
{
    if (!order("kill\n"))
        return 0;
    atomic_fetch_add(&shared->server_kills, 1);
    rest((int64_t)any(700) * MILLISECOND);
    return order("start\n");
}

/* Killed in the middle: the saves between two kills are about as many as those before the first and after the last. */
void server_disturb(struct shared *shared, long wanted)
{
    long kills = 1 + wanted / SAVES_A_KILL, killed = 0, ended;

    while (!atomic_load(&shared->over) && atomic_load(&shared->failed) == 0) {
        int due = killed < kills && atomic_load(&shared->accepted) * (kills + 1) >= wanted * (killed + 1);

        rest((int64_t)(50 + any(250)) * MILLISECOND);
        if ((ended = ask_number(terminate)) >= 0 && (!due || kill_server(shared))) {
            atomic_fetch_add(&shared->terminated, ended);
            killed += due;
        } else if (atomic_fetch_add(&shared->failed, 1) == 0) {
            printf("trial: the server doesn't answer\n");
            fflush(stdout);
        }
    }
}

/* Those who were killed may still be connected, for as long as the server takes to see it. */
int server_gather(const struct store *store)
{
    long left = 1;

    for (int i = 0; i < 50 && (left = ask_number(open_ones)) > 0; i++)
        rest(100 * MILLISECOND);
    if (left != 0)
        return wrong("all savers have ended, and %ld connections are open", left);
    if (ask_number(strange) != 0)
        return wrong("a row isn't of the form that the tables have");
    return fetch(in_sheet, store->file, "") && fetch(in_log, store->file, ".log") && fetch(in_ids, store->file, ".ids")
               ? 0
               : wrong("the rows can't be read");
}
