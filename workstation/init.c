/* The function of init.h: the tables for sheets and their saves, and who may do what with them. */
#define _POSIX_C_SOURCE 200809L
#include "init.h"
#include "say.h"
#include "url.h"
#include <stdio.h>
#include <stdlib.h>

#ifdef PLAN_POSTGRESQL
#include "server.h"

static const char making[] = "Can't make the tables of";

/* Roles belong to all databases of a server, so they may be there. A planner adds saves and alters none, and keeps a
   sheet's name and code; so it is the database that turns everybody else away. */
static const char *const statements[] = {
    "CREATE SCHEMA plan",
    "CREATE TABLE plan.sheets (name text COLLATE \"C\" PRIMARY KEY, code smallint NOT NULL, "
    "record_count integer NOT NULL, records bytea NOT NULL, marks bytea NOT NULL, digest bytea NOT NULL, "
    "saves bigint NOT NULL, seal bytea NOT NULL)",
    "CREATE TABLE plan.saves (sheet text COLLATE \"C\" NOT NULL REFERENCES plan.sheets, number bigint NOT NULL, "
    "id uuid NOT NULL UNIQUE, who text NOT NULL, at timestamptz NOT NULL, digest_before bytea NOT NULL, "
    "steps bytea NOT NULL, digest_after bytea NOT NULL, seal bytea NOT NULL, PRIMARY KEY (sheet, number))",
    "REVOKE ALL ON SCHEMA plan FROM PUBLIC",
    "REVOKE ALL ON plan.sheets, plan.saves FROM PUBLIC",
    "GRANT USAGE ON SCHEMA plan TO plan_planners, plan_viewers",
    "GRANT SELECT ON plan.sheets, plan.saves TO plan_planners, plan_viewers",
    "GRANT INSERT ON plan.sheets, plan.saves TO plan_planners",
    "GRANT UPDATE (record_count, records, marks, digest, saves, seal) ON plan.sheets TO plan_planners",
};

/* Whether there is a thing of this name, which a statement looks for. */
static int there(struct server *server, const char *statement, const char *name)
{
    struct values values = {0};
    PGresult *result;
    int rows;

    values_text(&values, name);
    result = server_ask(server, making, statement, &values);
    rows = PQntuples(result);
    PQclear(result);
    return rows > 0;
}

static void make_role(struct server *server, const char *name, const char *statement)
{
    if (!there(server, "SELECT 1 FROM pg_catalog.pg_roles WHERE rolname = $1", name))
        server_do(server, making, statement, NULL);
}

int init(const char *database)
{
    struct server server = {0};
    struct url url;
    enum commit answer;

    closing = " Nothing was made.";
    url_read(&url, database, 0);
    server_find(&server, &url);
    server_begin(&server, making);
    if (there(&server, "SELECT 1 FROM pg_catalog.pg_namespace WHERE nspname = $1", "plan"))
        stop(EXISTS, "%s has a schema plan already.", url.shown);
    make_role(&server, "plan_planners", "CREATE ROLE plan_planners NOLOGIN");
    make_role(&server, "plan_viewers", "CREATE ROLE plan_viewers NOLOGIN");
    for (size_t i = 0; i < sizeof statements / sizeof *statements; i++)
        server_do(&server, making, statements[i], NULL);
    answer = server_commit(&server);
    if (answer == REFUSED)
        server_stop(&server, making);
    closing = "";
    if (answer == LOST)
        stop(UNKNOWN,
             "The connection was lost at the commit: whether the tables are made isn't known. Give the command "
             "again.");
    server_leave(&server);
    free(url.uri);
    free(url.shown);
    printf("made: plan.sheets and plan.saves; who is in the role plan_planners saves, who is in plan_viewers reads\n");
    return printed(UNSURE);
}

#endif
