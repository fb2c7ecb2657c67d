/* The works on a state by columns. They stand apart from the other calls, as archives from before have none and are compared too. */
#ifndef COLUMNS_H
#define COLUMNS_H

#include "work.h"

enum { MOST_DUMP = 32 * 5, MOST_STATE = 8 * 5 };

/* By code, w: a state has 8w words, and its dump 32w bytes. */
static const size_t WIDTH[CODES + 1] = {0, 3, 3, 4, 5};

/* The words of the struct are the state, and the room for output has its dump; any bytes are one. */
static inline uint32_t archive_columns_from_words(struct job *job)
{
    size_t w = WIDTH[job->code];
    return luffa_columns_from_words(job->code, job->hash.state, 8 * w, job->out, 32 * w);
}

static inline uint32_t archive_words_from_columns(struct job *job)
{
    size_t w = WIDTH[job->code];
    return luffa_words_from_columns(job->code, job->out, 32 * w, job->hash.state, 8 * w);
}

static inline uint32_t archive_columns_from_message(struct job *job)
{
    return luffa_columns_from_message(job->message, BLOCK, job->out, BLOCK);
}

/* The message's first 32 bytes are taken for a dump. */
static inline uint32_t archive_columns_inject(struct job *job)
{
    return luffa_columns_inject(job->code, job->out, 32 * WIDTH[job->code], job->message, BLOCK);
}

#endif
