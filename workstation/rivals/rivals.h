/* What the parts of the trial share: plain lists of wells, running the workstation, what the rivals tried and how it
   ended, and what differs by where the sheet is kept. */
#ifndef RIVALS_H
#define RIVALS_H

#include <luffa.h>
#include <stdatomic.h>

enum { RIVALS_MOST = 64, RECORD = LUFFA_SHEET_RECORD_BYTES, DIGEST_MOST = LUFFA_512_BYTES, TEXT_MOST = 131072 };
enum { DIGITS_MOST = 2 * DIGEST_MOST + 1, PATH_ROOM = 4096, SAID_MOST = 1 << 20 };

/* A plain list of records, which is what a sheet should be. wells.c has what follows. */
struct list {
    size_t n;
    uint8_t records[LUFFA_SHEET_MOST][RECORD];
};

/* Numbers drawn by lot, below one that isn't 0. */
void any_from(uint64_t seed);
size_t any(size_t below);

/* A number of n bytes, high byte first. */
uint64_t number(const uint8_t *bytes, size_t n);

/* The digest of a list, from all its bytes afresh; zeros behind it. */
void list_digest(const struct list *list, size_t code, uint8_t out[DIGEST_MOST]);

/* Reads and writes the text of a list. Notes are as the trial makes them, and need no quotes. Reading gives 0 where
   the text is none; writing gives its length. */
int list_from_csv(struct list *list, const char *text);
size_t list_to_csv(const struct list *list, char text[TEXT_MOST]);

/* How many records before a place aren't struck. */
size_t list_standing(const struct list *list, size_t below);

/* Draws at most so many different places below one, in rising order, where asked only of records that aren't struck. */
size_t list_pick(const struct list *list, size_t below, int standing, size_t most, size_t *places);

/* A number that no well of the list has. */
unsigned list_free_number(const struct list *list);

/* Puts a well drawn by lot at a place, or after the last; its note is the name. One that was there keeps its number. */
void list_put(struct list *list, size_t place, const char *who);

/* Takes all struck records away. Gives how many those were. */
size_t list_close_up(struct list *list);

/* Running the workstation: run.c. Times are of one clock, in nanoseconds. */
int64_t now(void);
void rest(int64_t nanoseconds);

/* What is to happen to a saver within, as variables of its environment; nothing where the first is empty. */
struct doom {
    char variable[1024], patience[32];
};
extern const struct doom unharmed;

/* Runs a program, kills it after `kill_after` nanoseconds where that isn't negative, and gives its status or KILLED.
   What it printed is in said_out and said_err. Of our environment it gets what a sheet in a database needs. */
int run(char *const *arguments, const struct doom *doom, int64_t kill_after);
extern char said_out[SAID_MOST], said_err[SAID_MOST];

/* Finds the digest that was printed. Gives 0 where there is none. */
int told_digest(const char *said, size_t code, uint8_t digest[DIGEST_MOST], char digits[DIGITS_MOST]);

/* A file whole, or null; and the file that holds so many bytes, or 0. */
uint8_t *whole(const char *file, const char *end, size_t *len);
int write_whole(const char *file, const void *bytes, size_t n);

/* Finds the text that the workstation kept in a folder for a planner. Gives 0 where there is none. */
int find_kept(const char *folder, const char *who, char path[PATH_ROOM]);

enum kind { SAVE = 1, STRIKE, CLOSE_UP };
/* The steps of a save, as the log numbers them. */
enum step { CHANGED = 1, APPENDED, DROPPED, CLOSED_UP, STEP_KINDS };
/* An attempt that ended by itself has its status as its end, unless it was told that there is nothing to save. */
enum end { UNDER_WAY = -3, NOTHING = -2, KILLED = -1, LOST = 74, UNKNOWN = 76 };
/* What a save that was asked for by its id was said to be, by its saver or afterwards. */
enum asked { NOT_ASKED, ASKED_ACCEPTED, ASKED_MISSING };

/* An attempt to save. What was intended stands here before the saver is started. */
struct attempt {
    int kind, end, asked, doomed;
    size_t steps[STEP_KINDS];   /* how many of each its save must have; all 0 where it asks for nothing */
    uint8_t claim[DIGEST_MOST]; /* the digest that the opening gave */
    uint8_t aim[DIGEST_MOST];   /* the digest of the list that its save must give */
    uint8_t told[DIGEST_MOST];  /* where done the new digest, where stale the one held */
    char id[37];                /* by which it is asked for, where its end is UNKNOWN */
    int64_t opening, opened, saving, saved;
};

/* Shared by all processes of the trial. Attempt i of rival r saves under the name "rR.I". */
struct shared {
    int64_t began; /* in seconds since 1970 */
    atomic_long accepted, failed;
    atomic_long over, terminated, server_kills, refused; /* of the server, and openings that it refused */
    struct rival {
        long attempts, outside, inside; /* attempts, and those killed from outside and at a step */
        struct attempt *attempt;
    } rivals[RIVALS_MOST + 1]; /* the last is the trial itself */
};

/* A save as it goes to the workstation, and the number of records that it must leave. */
enum { WELLS_MOST = 4 };
struct save {
    char who[25], claim[DIGITS_MOST], wells[WELLS_MOST][8], text[TEXT_MOST];
    size_t wells_n, text_len, left;
};

/* What a rival wishes to save. What is odd asks for nothing, or for what can't be had. wishes.c has what follows. */
enum wish { CHANGES, SIZE, STRIKES, CLOSING, ODD };

/* Draws an attempt by a wish, and makes of the list what its save must give, after so many saves of those that the
   trial wants. Where nothing is struck a well is struck instead of closing up, and where there is no well to change or
   strike the sheet grows. */
void intend(struct attempt *a, enum wish wish, struct list *list, long saves, long wanted, struct save *save);

/* Where the sheet is kept, and what differs by it. stores.c has the two. */
struct store {
    char sheet[PATH_ROOM];  /* its name for the workstation */
    char folder[PATH_ROOM]; /* where planners' texts are */
    char file[PATH_ROOM];   /* the sheet as the check reads it, with its log as FILE.log */
    /* In a database a seal covers this name too, FILE.ids has what the rows have besides, a saver may lose its
       connection, and a save may be accepted after its saver was killed. Null where it is a file. */
    const char *rows;
    const char *parts; /* what a saver may die at, */
    size_t one_in;     /* and that one in so many is meant to */
    /* The k-th doom of rival r, drawn by lot. */
    void (*draw)(struct doom *doom, int r, long k);
    /* Whether a file may stay in the folder. */
    int (*stays)(const char *name);
    /* Called once at first with the undisturbed save's words: gives 0 where it can't go on. */
    int (*learn)(const char *said);
    /* What is done to all of them meanwhile, until `over`; and what the check reads is made, or 1 given. */
    void (*disturb)(struct shared *shared, long wanted);
    int (*gather)(const struct store *store);
};

/* Makes the one in a folder, or in a database whose server a command of the shell kills and starts (server.h). Gives
   null where it can't. */
const struct store *file_store(const char *folder);
const struct store *database_store(const char *folder, const char *database);

/* The whole check, after all rivals have ended in so many seconds, for a trial of so many saves. Prints the figures and
   gives 0, or says what is wrong and gives 1. */
int check(const struct store *store, size_t code, const struct shared *shared, int rivals, long wanted, double seconds);

/* Says what is violated, and gives 1. */
#if defined(__GNUC__)
__attribute__((format(printf, 1, 2)))
#endif
int wrong(const char *words, ...);

#endif
