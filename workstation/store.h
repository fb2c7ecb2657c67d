/*
 * Where a sheet is kept. There are two kinds, and the rest of the workstation doesn't ask which one it has: files
 * (files.c), and a row of a PostgreSQL database (database.c), where the sheet is named postgresql://... Both offer the
 * same: a sheet is found and read; opened, which holds its lock, and saved or left; and its saves are read in order.
 */
#ifndef STORE_H
#define STORE_H

#include "entry.h"
#include "place.h"

/* Of a sheet in a file: its mode and group, which a save keeps, as without them the others of the group couldn't read
   it any more; its log while it is open; and how much of it is still to be read. */
struct files {
    mode_t mode;
    gid_t group;
    int log;
    uint64_t left;
};

struct store {
    const struct store_kind *kind;
    char *given;        /* the sheet as the command names it, but for a password */
    char *name;         /* as messages name the sheet, */
    char *log_name;     /* and what has its saves */
    struct place place; /* of planners' texts, and of a sheet in a file its own */
    uint64_t saves;     /* that are still to be read */
    struct files files; /* what each kind has for itself */
    struct database *database;
};

/* Hands a command about a sheet in a database over to the program beside this one that was built with libpq, where this
   one wasn't: one who keeps sheets in files doesn't load libpq, and all that it needs, at each start. Comes back where
   there is no such command, or no such program. */
void store_hand_over(char **argv);

/* Each of these ends the program with a message where it can't be done. */

/* Finds the place of a sheet that exists, or of one that is to be made; closes it. */
void store_find(struct store *store, const char *sheet);
void store_find_new(struct store *store, const char *sheet);
void store_close(struct store *store);

/* Whether planners' texts stand beside the sheet, and readies their place. Gives 0 where it can't be had. */
int store_texts_beside(const struct store *store);
int store_texts(struct store *store);

/* Reads the sheet and checks it whole. It needs no lock: a save is there whole or not at all. With `spoiled`, marks
   that aren't those of the records are mended in memory (sheet.h). store_look checks too that its saves lead up to it.
 */
void store_read(struct store *store, struct sheet *sheet, struct luffa_mend_answer *spoiled);
void store_look(struct store *store, struct sheet *sheet);

/* Makes a sheet, empty. Gives 0 where there is one already, which is left alone. */
int store_make(struct store *store, const struct sheet *sheet);

/* Waits for the lock and holds it, reads the sheet, and checks that its saves lead up to it. */
void store_open(struct store *store, struct sheet *sheet, struct luffa_mend_answer *spoiled);

/* Of a sheet that is open: saves the next one in its place together with the entry, of which it fills in when; writes
   its marks anew; or leaves all as it is. Each lets go of the lock. A save gives 0 where it is there and the server
   warns of it, which is said. */
int store_save(struct store *store, struct sheet *next, struct entry *entry);
void store_mend(struct store *store, const struct sheet *sheet);
void store_leave(struct store *store);

/* Holds nothing open any more, since it may be hours until the next call, as while an editor is at work. */
void store_rest(struct store *store);

/* The saves of a sheet that was read, from the first on; store_next gives 0 after the last that the sheet counts. One
   who stops before it says so. */
void store_saves(struct store *store, const struct sheet *sheet);
int store_next(struct store *store, struct entry *entry);
void store_enough(struct store *store);

/* The list that a sheet had when its digest was this one. Gives 0 where it never was. */
int store_had(struct store *store, const struct sheet *sheet, const uint8_t digest[DIGEST_MOST], struct list *list);

/* Whether the save of an id was accepted: its number, or 0. Ends the program where saves have no ids. */
uint64_t store_ask(struct store *store, const char *id);

/* What a kind does for these. */
struct store_kind {
    int texts_beside;
    void (*find)(struct store *store, const char *sheet, int is_new);
    void (*close)(struct store *store);
    int (*texts)(struct store *store);
    void (*read)(struct store *store, struct sheet *sheet, struct luffa_mend_answer *spoiled);
    void (*look)(struct store *store, struct sheet *sheet);
    int (*make)(struct store *store, const struct sheet *sheet);
    void (*open)(struct store *store, struct sheet *sheet, struct luffa_mend_answer *spoiled);
    int (*save)(struct store *store, struct sheet *next, struct entry *entry);
    void (*mend)(struct store *store, const struct sheet *sheet);
    void (*leave)(struct store *store);
    void (*rest)(struct store *store);
    void (*saves)(struct store *store, const struct sheet *sheet);
    void (*next)(struct store *store, struct entry *entry, int is_last);
    void (*enough)(struct store *store);
    uint64_t (*ask)(struct store *store, const char *id);
};
extern const struct store_kind files_kind, database_kind;

#endif
