/* `plan init`: what a database needs for sheets. */
#ifndef INIT_H
#define INIT_H

/* Makes the tables and the roles in a database named postgresql://... Gives the status to end with. */
int init(const char *database);

#endif
