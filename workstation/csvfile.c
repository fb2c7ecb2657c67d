/* The functions of csvfile.h. */
#define _POSIX_C_SOURCE 200809L
#include "csvfile.h"
#include "say.h"
#include "store.h"
#include "text.h"
#include <fcntl.h>
#include <stdlib.h>
#include <string.h>
#include <unistd.h>

void say_at(const char *file, const struct csv_fault *fault)
{
    fflush(stdout);
    fprintf(stderr, "plan: ");
    text_put(stderr, file);
    fprintf(stderr, ", line %zu, column %zu: %s.\n", fault->line, fault->column, fault->words);
}

void csvfile_read(struct text *text, struct list *list, char opened[OPENED_MOST], const char *file)
{
    int fd = strcmp(file, "-") == 0 ? 0 : open(file, O_RDONLY | O_CLOEXEC);
    struct csv_fault fault;
    ssize_t got = -1;

    if (fd < 0 || (got = read_all(fd, text->bytes, sizeof text->bytes)) < 0)
        stop_failed(FAILED, "Can't read", file);
    if (fd > 0)
        close(fd);
    text->len = (size_t)got;
    if (csv_read(list, opened, text->bytes, text->len, &fault))
        return;
    say_at(file, &fault);
    fprintf(stderr, "plan:%s\n", closing);
    exit(DAMAGED);
}
