/* The functions of store.h: each asks the kind that the sheet's name says. */
#define _POSIX_C_SOURCE 200809L
#include "store.h"
#include "say.h"
#include <string.h>
#include <strings.h>
#include <unistd.h>

/* The names that libpq takes for a database's. */
static int in_database(const char *sheet)
{
    return strncmp(sheet, "postgresql://", 13) == 0 || strncmp(sheet, "postgres://", 11) == 0;
}

void store_hand_over(char **argv)
{
#ifndef PLAN_POSTGRESQL
    static const char with[] = "-postgresql";
    char path[PATH_MAX + sizeof with];
    ssize_t len = readlink("/proc/self/exe", path, PATH_MAX);
    int about_database = 0;

    for (size_t i = 1; argv[0] && argv[i]; i++)
        about_database = about_database || in_database(argv[i]);
    if (!about_database || len <= 0)
        return;
    memcpy(path + len, with, sizeof with);
    execv(path, argv);
#else
    (void)argv;
#endif
}

/* What was meant for one, and is mistyped, may have a password in it: it isn't taken for a file's name, and told. */
static void check_mistyped(const char *sheet)
{
    if (strstr(sheet, "://") || (strncasecmp(sheet, "postgres", 8) == 0 && strchr(sheet, ':')))
        stop(USAGE, "The name of a sheet in a database begins with postgresql://, and no other may have :// in it.");
}

static void find(struct store *store, const char *sheet, int is_new)
{
    if (!in_database(sheet))
        check_mistyped(sheet);
    memset(store, 0, sizeof *store);
    store->kind = in_database(sheet) ? &database_kind : &files_kind;
    store->kind->find(store, sheet, is_new);
}

void store_find(struct store *store, const char *sheet)
{
    find(store, sheet, 0);
}

void store_find_new(struct store *store, const char *sheet)
{
    find(store, sheet, 1);
}

void store_close(struct store *store)
{
    store->kind->close(store);
}

int store_texts_beside(const struct store *store)
{
    return store->kind->texts_beside;
}

int store_texts(struct store *store)
{
    return store->kind->texts(store);
}

void store_read(struct store *store, struct sheet *sheet, struct luffa_mend_answer *spoiled)
{
    store->kind->read(store, sheet, spoiled);
}

void store_look(struct store *store, struct sheet *sheet)
{
    store->kind->look(store, sheet);
}

int store_make(struct store *store, const struct sheet *sheet)
{
    int made = store->kind->make(store, sheet);

    if (made)
        closing = "";
    return made;
}

void store_open(struct store *store, struct sheet *sheet, struct luffa_mend_answer *spoiled)
{
    store->kind->open(store, sheet, spoiled);
}

int store_save(struct store *store, struct sheet *next, struct entry *entry)
{
    int confirmed = store->kind->save(store, next, entry);

    closing = going_on = "";
    return confirmed;
}

void store_mend(struct store *store, const struct sheet *sheet)
{
    store->kind->mend(store, sheet);
    closing = "";
}

void store_leave(struct store *store)
{
    store->kind->leave(store);
}

void store_rest(struct store *store)
{
    store->kind->rest(store);
}

void store_saves(struct store *store, const struct sheet *sheet)
{
    store->saves = sheet->saves;
    store->kind->saves(store, sheet);
}

int store_next(struct store *store, struct entry *entry)
{
    if (store->saves == 0) {
        store_enough(store);
        return 0;
    }
    store->saves--;
    store->kind->next(store, entry, store->saves == 0);
    return 1;
}

void store_enough(struct store *store)
{
    store->kind->enough(store);
}

/* The saves are folded over a plain list until one has left the digest; whether the list has it, the library says. */
int store_had(struct store *store, const struct sheet *sheet, const uint8_t digest[DIGEST_MOST], struct list *list)
{
    static struct entry entry;
    uint8_t found[DIGEST_MOST] = {0};

    store_saves(store, sheet);
    memset(list, 0, sizeof *list);
    luffa_digest(sheet->code, list->records, 0, found, DIGEST_MOST);
    while (memcmp(found, digest, DIGEST_MOST) != 0) {
        if (!store_next(store, &entry))
            return 0;
        if (!steps_fold(list, &entry.steps))
            stop(DAMAGED, "%s is damaged: a save in it can't be made.", store->log_name);
        memcpy(found, entry.after, DIGEST_MOST);
    }
    memset(found, 0, sizeof found);
    luffa_digest(sheet->code, list->records, RECORD * list->n, found, DIGEST_MOST);
    if (memcmp(found, digest, DIGEST_MOST) != 0)
        stop(DAMAGED, "%s is damaged: its saves don't give the digests that it has.", store->log_name);
    store_enough(store);
    return 1;
}

uint64_t store_ask(struct store *store, const char *id)
{
    return store->kind->ask(store, id);
}
