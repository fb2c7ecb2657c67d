/* The server of a trial over PostgreSQL. Its queries go through psql, which finds it by the variables PGHOST, PGPORT,
   PGUSER and PGDATABASE; it is killed and started by who started the trial: an order is a line on descriptor 3, and a
   line on descriptor 4 says that it is done. */
#ifndef SERVER_H
#define SERVER_H

#include "rivals.h"

/* Terminates connections, several a second, and kills the server, until the trial is over. */
void server_disturb(struct shared *shared, long wanted);

/* Writes the rows of the one sheet that there is as the files of a sheet and its log, and FILE.ids with, for each save,
   its id, its number and its seal. Gives 0, or 1 where the rows can't stand for such files, or somebody still has a
   transaction open. */
int server_gather(const struct store *store);

#endif
