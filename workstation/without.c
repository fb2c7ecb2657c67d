/* What stands for database.c where the workstation is built without libpq, and the program that was built with it isn't
   there: it says so when such a sheet is named. */
#define _POSIX_C_SOURCE 200809L
#include "init.h"
#include "say.h"
#include "store.h"

#ifndef PLAN_POSTGRESQL

static const char words[] =
    "This plan was built without PostgreSQL (libpq), which sheets named postgresql:// are kept in, and beside it is no "
    "plan-postgresql.";

static void without_find(struct store *store, const char *sheet, int is_new)
{
    (void)store, (void)sheet, (void)is_new;
    stop(USAGE, "%s", words);
}

const struct store_kind database_kind = {.find = without_find};

int init(const char *database)
{
    (void)database;
    stop(USAGE, "%s", words);
}

#endif
