/* What the workstation says, and the statuses that it ends with. */
#ifndef SAY_H
#define SAY_H

#include <stddef.h>
#include <stdint.h>
#include <stdio.h>

/* Besides 0 and the numbers of luffa.h. */
enum status {
    USAGE = 64,        /* the command line can't be understood */
    DAMAGED = 65,      /* the sheet, its log or a CSV file can't be used, or the planner has said no */
    NOT_ACCEPTED = 69, /* the save that was asked for isn't there */
    EXISTS = 73,       /* there is such a sheet, or a kept text, already */
    FAILED = 74,       /* the system or the server refused something: nothing was saved */
    UNSURE = 75,       /* saved, but the system didn't confirm it or the answer couldn't be printed */
    UNKNOWN = 76       /* the connection was lost at the commit: whether it was saved isn't known */
};

/* What a message ends with: for a save, that nothing was saved; and how to go on with a text. */
extern const char *closing, *going_on;

/* Prints a message and ends. With it ends the hold on the lock. */
#if defined(__GNUC__)
__attribute__((noreturn, format(printf, 2, 3)))
#endif
void stop(int status, const char *words, ...);

/* The same, with what the system says about errno. */
#if defined(__GNUC__)
__attribute__((noreturn))
#endif
void stop_failed(int status, const char *doing, const char *name);

/* The sentence of an answer of luffa.h. */
const char *sentence(uint64_t answer);

/* Prints the line `digest` and the digits of one. */
void print_digest(FILE *to, const uint8_t *digest, size_t n);

/* A word of a command as a shell takes it. */
void put_word(FILE *to, const char *word);

/* "s" where there isn't one of a thing. */
const char *many(uint64_t n);

/* Ends after a command that was done: with 0, or with `status` where its answer couldn't be printed. */
int printed(int status);

#endif
