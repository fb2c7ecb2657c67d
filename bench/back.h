/* The works of stepping back over a block. They stand apart from the other calls on a record, as archives from before have none and are compared
   too. */
#ifndef BACK_H
#define BACK_H

#include "work.h"

/* The message's first block, from the record as it is. After as many feeds of it the record is the one from before them. */
static inline uint32_t archive_back(struct job *job) { return luffa_back(job->record, sizeof job->record, job->message, BLOCK); }

#endif
