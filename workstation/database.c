/*
 * A sheet in a PostgreSQL database: what store.h asks of a kind. init.c has the tables.
 *
 * A save is one transaction: the sheet's row is locked and read, the library judges and makes the save on what was
 * read, the entry and the row are written. The commit is the moment of acceptance, and the lock of the row is the lock
 * of saves: different sheets have different rows, and wait for each other nowhere.
 */
#define _POSIX_C_SOURCE 200809L
#include "say.h"
#include "store.h"
#include "text.h"
#include "url.h"
#include <inttypes.h>
#include <stdlib.h>
#include <string.h>

#ifdef PLAN_POSTGRESQL
#include "ask.h"
#include "row.h"

static const char saving[] = "Can't save", reading[] = "Can't read";

/* So many saves are read at once. */
#define SAVES_AT_ONCE "64"

struct database {
    struct server server;
    struct url url;
    int64_t now;     /* by the server's clock, when the sheet was opened */
    size_t code;     /* of the sheet whose saves are read, */
    int64_t last;    /* its last save, */
    int64_t number;  /* the one that was read last, */
    PGresult *saves; /* some of those behind it, */
    int row;         /* and the first of these that wasn't taken yet */
};

/* Values that begin with the name of the sheet. */
static struct values named(const struct database *database)
{
    struct values values = {0};

    values_text(&values, database->url.name);
    return values;
}

static void database_find(struct store *store, const char *sheet, int is_new)
{
    static const char log_of[] = "the log of ";
    struct database *database = calloc(1, sizeof *database);

    (void)is_new;
    if (!database)
        stop_failed(FAILED, "Can't find", "the sheet");
    url_read(&database->url, sheet, 1);
    server_find(&database->server, &database->url);
    store->database = database;
    store->given = store->name = database->url.shown;
    store->log_name = malloc(sizeof log_of + strlen(store->name));
    if (!store->log_name)
        stop_failed(FAILED, "Can't find", store->name);
    sprintf(store->log_name, "%s%s", log_of, store->name);
    store->place.directory = -1;
}

static void database_close(struct store *store)
{
    server_leave(&store->database->server);
    if (store->place.directory >= 0)
        place_close(&store->place);
    free(store->database->url.uri);
    free(store->database->url.shown);
    free(store->database);
    free(store->log_name);
}

/* A file's name has eight digits of the digest of the sheet's whole name in it, so that sheets of one name in two
   databases have two files. A long name is cut off. */
static int database_texts(struct store *store)
{
    char file[NAME_IN_FILE(SHEET_NAME_MOST) + 10];
    uint8_t digest[LUFFA_256_BYTES];
    size_t len;

    if (store->place.directory >= 0)
        return 1;
    luffa_digest(LUFFA_256, (const uint8_t *)store->name, strlen(store->name), digest, sizeof digest);
    name_in_file(file, store->database->url.name);
    len = strlen(file) > 120 ? 120 : strlen(file);
    sprintf(file + len, "@%02x%02x%02x%02x", digest[0], digest[1], digest[2], digest[3]);
    return place_open_own(&store->place, file);
}

/* Reads the sheet by a statement that gives its row. */
static void read_by(struct store *store, const char *doing, const char *statement, struct sheet *sheet,
                    struct luffa_mend_answer *spoiled)
{
    struct database *database = store->database;
    struct values values = named(database);
    PGresult *result = server_ask(&database->server, doing, statement, &values);
    const char *wrong;
    int there;

    there = PQntuples(result) == 1;
    wrong = there ? sheet_from_row(sheet, result, database->url.name, spoiled) : NULL;
    PQclear(result);
    if (!there)
        stop(FAILED, "Can't find %s: the database has no such sheet.", store->name);
    if (wrong)
        stop(DAMAGED, "%s is damaged and isn't used: %s.", store->name, wrong);
}

static void database_read(struct store *store, struct sheet *sheet, struct luffa_mend_answer *spoiled)
{
    read_by(store, reading, "SELECT " SHEET_COLUMNS " FROM plan.sheets WHERE name = $1", sheet, spoiled);
}

/* Checks that the saves end where the sheet stands, and asks what the time is. It is a statement of its own, as one
   that has waited for a lock sees every other row as it was before. */
static void check_end(struct store *store, const char *doing, const struct sheet *sheet)
{
    static struct entry entry;
    struct database *database = store->database;
    struct values values = named(database);
    PGresult *result = server_ask(&database->server, doing,
                                  "SELECT floor(extract(epoch FROM clock_timestamp()))::bigint, " SAVE_COLUMNS
                                  " FROM (SELECT 1) one LEFT JOIN (SELECT * FROM plan.saves WHERE sheet = $1"
                                  " ORDER BY number DESC LIMIT 1) last ON true",
                                  &values);
    const char *wrong = NULL;
    uint64_t number = 0;

    database->now = cell_number(result, 0, 0);
    if (!PQgetisnull(result, 0, 1))
        wrong = save_from_row(&entry, &number, result, 0, 1, database->url.name, sheet->code);
    PQclear(result);
    if (wrong)
        stop(DAMAGED, "%s is damaged: %s.", store->log_name, wrong);
    if (number > sheet->saves)
        stop(DAMAGED, "%s is older than its log, which has saves that it lacks.", store->name);
    if (number < sheet->saves)
        stop(DAMAGED, "%s is cut off: it has fewer saves than the sheet.", store->log_name);
    if (number > 0 && memcmp(entry.after, sheet->digest, DIGEST_MOST) != 0)
        stop(DAMAGED, "The last save in %s didn't give this sheet.", store->log_name);
}

static void database_look(struct store *store, struct sheet *sheet)
{
    server_begin_reading(&store->database->server, reading);
    database_read(store, sheet, NULL);
    check_end(store, reading, sheet);
    server_roll_back(&store->database->server);
}

static void database_open(struct store *store, struct sheet *sheet, struct luffa_mend_answer *spoiled)
{
    server_begin(&store->database->server, saving);
    read_by(store, saving, "SELECT " SHEET_COLUMNS " FROM plan.sheets WHERE name = $1 FOR UPDATE", sheet, spoiled);
    check_end(store, saving, sheet);
}

static void database_leave(struct store *store)
{
    server_roll_back(&store->database->server);
}

static void database_rest(struct store *store)
{
    server_leave(&store->database->server);
}

/* Ends the program where a commit that can be made again wasn't made, or may not have been. */
static void commit_again(struct store *store, const char *what)
{
    struct server *server = &store->database->server;
    enum commit answer = server_commit(server);

    if (answer == REFUSED)
        stop(FAILED, "%s %s: %s.", saving, store->name, server->words);
    if (answer != LOST)
        return;
    closing = "";
    stop(UNKNOWN, "The connection was lost at the commit: whether %s isn't known. Give the command again.", what);
}

/* Saves without a sheet are those of one whose row was taken away. */
static void check_none(struct store *store)
{
    struct values values = named(store->database);
    PGresult *result = server_ask(&store->database->server, "Can't make",
                                  "SELECT 1 FROM plan.saves WHERE sheet = $1 LIMIT 1", &values);
    int rows = PQntuples(result);

    PQclear(result);
    if (rows > 0)
        stop(EXISTS, "%s is there, the log of a sheet that isn't. Put the sheet's row back, or take its log away too.",
             store->log_name);
}

static int database_make(struct store *store, const struct sheet *sheet)
{
    struct database *database = store->database;
    struct values values = named(database);
    PGresult *result;
    int made;

    values_sheet(&values, sheet, database->url.name);
    server_begin(&database->server, "Can't make");
    result = server_ask(&database->server, "Can't make",
                        "INSERT INTO plan.sheets (name, " SHEET_COLUMNS
                        ") VALUES ($1, $2, $3, $4, $5, $6, $7, $8) ON CONFLICT (name) DO NOTHING",
                        &values);
    made = strcmp(PQcmdTuples(result), "1") == 0;
    PQclear(result);
    if (made)
        check_none(store);
    commit_again(store, "the sheet is made");
    return made;
}

/* Writes the row of the sheet that is open. */
static void update(struct store *store, const struct sheet *sheet)
{
    struct database *database = store->database;
    struct values values = named(database);
    PGresult *result;
    int written;

    values_sheet(&values, sheet, database->url.name);
    result = server_ask(&database->server, saving,
                        "UPDATE plan.sheets SET record_count = $3, records = $4, marks = $5, digest = $6, saves = $7, "
                        "seal = $8 WHERE name = $1 AND code = $2",
                        &values);
    written = strcmp(PQcmdTuples(result), "1") == 0;
    PQclear(result);
    if (!written)
        stop(FAILED, "%s %s: its row is gone.", saving, store->name);
}

/* Asks by its id whether a save was accepted, where the connection was lost at the commit. */
static void ask_again(struct store *store, const uint8_t id[ID])
{
    struct server *server = &store->database->server;
    int64_t number = ask_patiently(server, store->database->url.name, id);
    char digits[ID_DIGITS];

    id_digits(digits, id);
    if (number == 0)
        stop(FAILED, "The connection was lost at the commit. Asked by its id, %s, the save was not accepted.", digits);
    fflush(stdout);
    if (number > 0) {
        fprintf(stderr, "plan: The connection was lost at the commit. Asked by its id, the save was accepted.\n");
        return;
    }
    fprintf(stderr, "plan: The connection was lost at the commit, and the server can't be asked: ");
    text_put(stderr, server->words);
    fprintf(stderr,
            ". Whether the save was accepted isn't known yet.%s Ask when the server is there again:\n  plan ask ",
            going_on);
    put_word(stderr, store->given);
    fprintf(stderr, " %s\n", digits);
    exit(UNKNOWN);
}

static int database_save(struct store *store, struct sheet *next, struct entry *entry)
{
    struct database *database = store->database;
    struct values values = named(database);
    uint8_t id[ID];
    enum commit answer;

    id_draw(id);
    entry->when = database->now;
    next->saves++;
    values_save(&values, entry, next->saves, id, database->url.name, next->code);
    server_do(&database->server, saving,
              "INSERT INTO plan.saves (sheet, " SAVE_COLUMNS ") VALUES ($1, $2, $3, $4, $5, $6, $7, $8, $9)", &values);
    update(store, next);
    answer = server_commit(&database->server);
    if (answer == REFUSED)
        stop(FAILED, "%s %s: %s.", saving, store->name, database->server.words);
    if (answer == LOST)
        ask_again(store, id);
    if (!database->server.warning[0])
        return 1;
    fflush(stdout);
    fprintf(stderr, "plan: The server warns of this save: ");
    text_put(stderr, database->server.warning);
    fprintf(stderr, ".\n");
    return 0;
}

static void database_mend(struct store *store, const struct sheet *sheet)
{
    update(store, sheet);
    commit_again(store, "the marks are mended");
}

static void database_saves(struct store *store, const struct sheet *sheet)
{
    struct database *database = store->database;

    database->code = sheet->code;
    database->last = (int64_t)sheet->saves;
    database->number = 0;
}

/* Reads the next saves. It needs no transaction: those that the sheet counts are there for good. */
static void fetch(struct store *store)
{
    struct database *database = store->database;
    struct values values = named(database);

    PQclear(database->saves);
    values_number(&values, 8, database->number);
    values_number(&values, 8, database->last);
    database->saves =
        server_ask(&database->server, reading,
                   "SELECT " SAVE_COLUMNS " FROM plan.saves WHERE sheet = $1 AND number > $2 AND number <= $3 "
                   "ORDER BY number LIMIT " SAVES_AT_ONCE,
                   &values);
    database->row = 0;
}

static void database_next(struct store *store, struct entry *entry, int is_last)
{
    struct database *database = store->database;
    const char *wrong;
    uint64_t number;

    (void)is_last;
    if (!database->saves || database->row == PQntuples(database->saves))
        fetch(store);
    if (PQntuples(database->saves) == 0)
        stop(DAMAGED, "%s is cut off: it has fewer saves than the sheet.", store->log_name);
    wrong = save_from_row(entry, &number, database->saves, database->row++, 0, database->url.name, database->code);
    if (wrong)
        stop(DAMAGED, "%s is damaged: %s.", store->log_name, wrong);
    database->number++;
    if (number != (uint64_t)database->number)
        stop(DAMAGED, "%s is damaged: save %" PRId64 " is missing.", store->log_name, database->number);
}

static void database_enough(struct store *store)
{
    PQclear(store->database->saves);
    store->database->saves = NULL;
}

static uint64_t database_ask(struct store *store, const char *digits)
{
    struct server *server = &store->database->server;
    uint8_t id[ID];
    int64_t number;

    if (!id_read(id, digits))
        stop(USAGE, "%s isn't the id of a save: it has 32 hexadecimal digits.", digits);
    number = ask(server, store->database->url.name, id);
    if (number == NO_SHEET)
        server_stop(server, "Can't ask");
    if (number == NOT_ASKED)
        stop(UNKNOWN, "Can't ask %s: %s. Whether the save was accepted isn't known.", store->name, server->words);
    return (uint64_t)number;
}

const struct store_kind database_kind = {
    .texts_beside = 0,
    .find = database_find,
    .close = database_close,
    .texts = database_texts,
    .read = database_read,
    .look = database_look,
    .make = database_make,
    .open = database_open,
    .save = database_save,
    .mend = database_mend,
    .leave = database_leave,
    .rest = database_rest,
    .saves = database_saves,
    .next = database_next,
    .enough = database_enough,
    .ask = database_ask,
};

#endif
