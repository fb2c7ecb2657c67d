/* The functions of ask.h. */
#define _DEFAULT_SOURCE /* getentropy */
#include "say.h"
#include "text.h"
#include <stdlib.h>
#include <string.h>
#include <time.h>
#include <unistd.h>

#ifdef PLAN_POSTGRESQL
#include "ask.h"

/* As a UUID of version 4 has them. */
void id_draw(uint8_t id[ID])
{
    if (getentropy(id, ID) != 0)
        stop_failed(FAILED, "Can't draw", "an id");
    id[6] = (uint8_t)(0x40 | (id[6] & 0x0f));
    id[8] = (uint8_t)(0x80 | (id[8] & 0x3f));
}

void id_digits(char digits[ID_DIGITS], const uint8_t id[ID])
{
    for (size_t i = 0; i < ID; i++)
        digits += sprintf(digits, "%s%02x", i == 4 || i == 6 || i == 8 || i == 10 ? "-" : "", id[i]);
}

int id_read(uint8_t id[ID], const char *digits)
{
    size_t n = 0;

    memset(id, 0, ID);
    for (; *digits; digits++) {
        if (*digits == '-')
            continue;
        if (n == 2 * ID || hex_digit(*digits) < 0)
            return 0;
        id[n / 2] = (uint8_t)(id[n / 2] << 4 | hex_digit(*digits));
        n++;
    }
    return n == 2 * ID;
}

/* Makes a statement that gives at most one row. Gives how many, or -1; and the number in it. */
static int try_row(struct server *server, const char *statement, const struct values *values, int64_t *number)
{
    PGresult *result = server_try(server, statement, values);
    int rows = result ? PQntuples(result) : -1;

    if (rows == 1)
        *number = cell_number(result, 0, 0);
    PQclear(result);
    return rows;
}

/* The lost saver's transaction may still be under way, its commit even on its way to the server. It holds the lock of
   the sheet's row until it has ended, in one way or the other: so who holds that lock knows. */
int64_t ask(struct server *server, const char *name, const uint8_t id[ID])
{
    struct values values = {0};
    int64_t number = NOT_ASKED, unused;
    int rows;

    values_text(&values, name);
    if (!server_try_begin(server) ||
        (rows = try_row(server, "SELECT saves FROM plan.sheets WHERE name = $1 FOR UPDATE", &values, &unused)) < 0)
        return server_has_no_tables(server) ? NO_SHEET : NOT_ASKED;
    if (rows == 0) {
        snprintf(server->words, sizeof server->words, "the database has no such sheet");
        return NO_SHEET;
    }
    values_bytes(&values, id, ID);
    rows = try_row(server, "SELECT number FROM plan.saves WHERE sheet = $1 AND id = $2", &values, &number);
    if (rows >= 0)
        server_roll_back(server);
    return rows == 0 ? 0 : number;
}

static double seconds(void)
{
    struct timespec t;

    clock_gettime(CLOCK_MONOTONIC, &t);
    return (double)t.tv_sec + (double)t.tv_nsec / 1e9;
}

int64_t ask_patiently(struct server *server, const char *name, const uint8_t id[ID])
{
    const char *said = getenv("PLAN_PATIENCE");
    double until = seconds() + (said ? strtod(said, NULL) : 30);
    struct timespec pause = {.tv_nsec = 200000000};
    int64_t number;

    do {
        server_leave(server);
        number = ask(server, name, id);
    } while (number < 0 && seconds() < until && nanosleep(&pause, NULL) == 0);
    return number;
}

#endif
