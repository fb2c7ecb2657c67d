/* The functions of kept.h. */
#define _POSIX_C_SOURCE 200809L
#include "kept.h"
#include "say.h"
#include "text.h"
#include <errno.h>
#include <fcntl.h>
#include <stdio.h>
#include <string.h>
#include <unistd.h>

void kept_find(struct kept *kept, struct store *store, const char *who)
{
    char encoded[NAME_IN_FILE(WHO)];

    kept->who = who;
    kept->beside = store_texts_beside(store);
    kept->why = store_texts(store) ? NULL : strerror(errno);
    if (kept->why)
        return;
    name_in_file(encoded, who);
    if ((size_t)snprintf(kept->name, sizeof kept->name, "%s~%s.csv", store->place.name, encoded) >= sizeof kept->name)
        stop(USAGE, "%s: the name is too long for a text beside it.", store->name);
    snprintf(kept->path, sizeof kept->path, "%s/%s", store->place.folder, kept->name);
}

int kept_read(struct kept *kept, const struct store *store)
{
    /* What is no file, as a pipe, isn't waited for. */
    int fd = openat(store->place.directory, kept->name, O_RDONLY | O_CLOEXEC | O_NONBLOCK);
    ssize_t got;

    if (fd < 0)
        return errno == ENOENT ? 0 : -1;
    /* More than a text may have is read, so that a longer one is seen to be one. */
    got = read_all(fd, kept->text, sizeof kept->text);
    close(fd);
    kept->len = got < 0 ? 0 : (size_t)got;
    return got < 0 ? -1 : 1;
}

/* Who writes or removes holds the lock of the place. Who holds the lock of a sheet in a file holds that already. */
enum hold { NOT_HELD, HELD_NOW, HELD_BEFORE };

static enum hold lock(struct place *place)
{
    return place->locked ? HELD_BEFORE : place_try_lock(place) ? HELD_NOW : NOT_HELD;
}

static void unlock(struct place *place, enum hold hold)
{
    int error = errno;

    if (hold == HELD_NOW)
        place_unlock(place);
    errno = error;
}

/* Its name is on the disk too before the planner is told of it. */
int kept_write(const struct kept *kept, struct store *store)
{
    struct place *place = &store->place;
    enum hold hold = lock(place);
    int written = hold && place_clean(place) && place_put(place, kept->name, 0, 0, kept->text, kept->len) &&
                  fsync(place->directory) == 0;

    unlock(place, hold);
    return written;
}

int kept_there(const struct kept *kept, const struct store *store)
{
    static struct kept there;
    int found;

    memcpy(there.name, kept->name, sizeof there.name);
    found = kept_read(&there, store);
    if (found == 0)
        return -1;
    return found == 1 && there.len == kept->len && memcmp(there.text, kept->text, kept->len) == 0;
}

enum written kept_write_new(const struct kept *kept, struct store *store)
{
    enum hold hold = lock(&store->place);
    int found = hold ? kept_there(kept, store) : -1;
    enum written answer = NOT_WRITTEN;

    if (found >= 0)
        answer = found == 1 ? THERE_ALREADY : ANOTHER_THERE;
    else if (hold && kept_write(kept, store))
        answer = WRITTEN;
    unlock(&store->place, hold);
    return answer;
}

void kept_remove(const struct kept *kept, struct store *store)
{
    enum hold hold = lock(&store->place);
    int found = kept_there(kept, store),
        removed = hold && found == 1 && unlinkat(store->place.directory, kept->name, 0) == 0;

    unlock(&store->place, hold);
    if (found < 0 || removed)
        return;
    fprintf(stderr, "plan: ");
    text_put(stderr, kept->name);
    fprintf(stderr, found == 0 ? " has become another text, and is left there.\n" : " can't be removed.\n");
}

void kept_from_list(struct kept *kept, const struct list *list, const char *opened)
{
    kept->len = csv_write(kept->text, list, opened);
}

void kept_from_text(struct kept *kept, const uint8_t *text, size_t len, const char *opened)
{
    static const uint8_t mark[] = {0xef, 0xbb, 0xbf}; /* which a first line would stand before */

    kept->len = 0;
    if (len >= sizeof mark && memcmp(text, mark, sizeof mark) == 0) {
        text += sizeof mark;
        len -= sizeof mark;
    }
    if (len < 7 || memcmp(text, "opened,", 7) != 0)
        kept->len = (size_t)sprintf((char *)kept->text, "opened,%s\n", opened);
    memcpy(kept->text + kept->len, text, len);
    kept->len += len;
}

void kept_say(const struct kept *kept, const struct store *store)
{
    fprintf(stderr, "Your text is kept %sin ", kept->beside ? "beside the sheet, " : "");
    text_put(stderr, kept->beside ? kept->name : kept->path);
    fprintf(stderr, ". Lay it over the sheet as it is now:\n  plan edit ");
    put_word(stderr, store->given);
    fprintf(stderr, " --resume --as ");
    put_word(stderr, kept->who);
    putc('\n', stderr);
}
