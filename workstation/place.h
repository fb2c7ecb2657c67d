/* A folder and a name in it, under which several files stand: a sheet's own, or those of the texts of planners whose
   sheet is elsewhere. */
#ifndef PLACE_H
#define PLACE_H

#include <limits.h>
#include <stdint.h>
#include <sys/types.h>

/* Names within the directory. NAME.lock is the lock, NAME~NUMBER a file that is being written and NAME~WHO.csv the text
   of a planner (kept.h). */
struct place {
    int directory, lock, locked;
    char folder[PATH_MAX], name[NAME_MAX + 1], lock_name[NAME_MAX + 1], new_name[NAME_MAX + 1];
};

/* The longest name that leaves room for the names of the files beside it. */
enum { PLACE_NAME_MOST = NAME_MAX - 24 };

/* Opens a folder for a name of at most PLACE_NAME_MOST bytes. Gives 0 where that can't be done. */
int place_open(struct place *place, const char *folder, const char *name);

/* The same of the user's own folder for what was done and isn't finished, $XDG_STATE_HOME/plan or ~/.local/state/plan,
   which is made where it is missing. */
int place_open_own(struct place *place, const char *name);
void place_close(struct place *place);

/* Waits for the lock, which is held until it is let go or the program ends. The second gives 0 where it can't be had,
   the first ends the program then. */
void place_lock(struct place *place);
int place_try_lock(struct place *place);
void place_unlock(struct place *place);

/* Holds the text of a planner until the program ends. Gives 0 where another program does, and -1 where it can't be
   had. */
int place_hold_text(struct place *place, const char *who);

/* Under the lock: removes what writers that were killed have left; and puts bytes whole under a name, with the mode and
   the group of the file before where the mode isn't 0. Each gives 0 where that can't be done. */
int place_clean(const struct place *place);
int place_put(const struct place *place, const char *name, mode_t mode, gid_t group, const uint8_t *bytes, size_t len);

/* Reads up to n bytes until the end of the file, or writes n bytes. They give the bytes read, 0 where all were
   written, and -1 where it failed. */
ssize_t read_all(int fd, uint8_t *bytes, size_t n);
int write_all(int fd, const uint8_t *bytes, size_t n);

#endif
