/* A connection to a PostgreSQL server, and statements over it. Every value goes as a parameter, in binary form, and
   comes back in it; numbers have their high byte first, as the workstation's files have them. */
#ifndef SERVER_H
#define SERVER_H

#include "url.h"
#include <libpq-fe.h>

struct server {
    const char *uri, *shown; /* the second without a password, for messages */
    PGconn *connection;      /* null where there is none */
    int committing;          /* whether a commit is under way */
    int begun;               /* whether a transaction is under way, which goes on over no other connection */
    char warning[1024];      /* what the server warned of at a commit, as that no standby has it yet; or "" */
    char words[1024];        /* what was said of what failed last, in one line, */
    char state[6];           /* and its SQLSTATE, or "" where it wasn't the server that said it */
};

/* The values of a statement: $1, $2, .. in the order in which they were added. One with numbers isn't to be copied, as
   it points into itself. */
enum { VALUES_MOST = 9 };
struct values {
    int n;
    uint8_t numbers[VALUES_MOST][8];
    const char *value[VALUES_MOST];
    int len[VALUES_MOST], binary[VALUES_MOST];
};
void values_bytes(struct values *values, const void *bytes, size_t len);
void values_text(struct values *values, const char *text);
/* A smallint has 2 bytes, an integer 4, a bigint and a timestamp 8. */
void values_number(struct values *values, size_t bytes, int64_t number);

/* Names the server of a database. Ends the program where libpq can't understand the name. */
void server_find(struct server *server, const struct url *url);

/* Connects where there is no connection, or only one that was lost outside of a transaction. Gives 0 where that can't
   be done. */
int server_connect(struct server *server);
void server_leave(struct server *server);

/* Makes a statement; `values` may be null. The result is PQclear's to free. server_try gives null where it failed, and
   server_ask ends the program then, with the words `doing` before the server's; what it says of a server that has no
   tables for sheets names `plan init`. */
PGresult *server_try(struct server *server, const char *statement, const struct values *values);
PGresult *server_ask(struct server *server, const char *doing, const char *statement, const struct values *values);

/* Whether it failed as the database has no tables for sheets. */
int server_has_no_tables(const struct server *server);

/* That end. */
#if defined(__GNUC__)
__attribute__((noreturn))
#endif
void server_stop(const struct server *server, const char *doing);

/* The same as server_ask, of a statement whose result isn't wanted. */
void server_do(struct server *server, const char *doing, const char *statement, const struct values *values);

/* Begins a transaction that sees the database as it is at one moment; or one that writes. That doesn't outlast its
   saver's silence, as of a machine that was switched off, and waits for nobody else's for ever. */
void server_begin_reading(struct server *server, const char *doing);
void server_begin(struct server *server, const char *doing);

/* The same, and gives 0 where it fails. */
int server_try_begin(struct server *server);

/* Commits: DONE, or REFUSED where the server has undone it all, or LOST where the connection was lost, so that it isn't
   known. */
enum commit { DONE, REFUSED, LOST };
enum commit server_commit(struct server *server);

/* Leaves all as it was, or ends a transaction that has only read. */
void server_roll_back(struct server *server);

/* A cell of a result: its bytes and their number; and one that is a whole number. */
const uint8_t *cell(const PGresult *result, int row, int column, size_t *len);
int64_t cell_number(const PGresult *result, int row, int column);

#endif
