/* The ids that savers draw, and whether the save of an id was accepted. */
#ifndef ASK_H
#define ASK_H

#include "row.h"

enum { ID_DIGITS = 37 };

/* An id drawn by lot; its digits, as a UUID has them; and those read, with dashes anywhere or none. That gives 0 where
   they are none. */
void id_draw(uint8_t id[ID]);
void id_digits(char digits[ID_DIGITS], const uint8_t id[ID]);
int id_read(uint8_t id[ID], const char *digits);

/* Asks for the save of an id of a sheet: its number, or 0 where it wasn't accepted and will not be; NOT_ASKED where it
   can't be asked, and NO_SHEET where the database has no such sheet. The second tries again and again over new
   connections, for PLAN_PATIENCE seconds, 30 unless said. */
enum { NOT_ASKED = -1, NO_SHEET = -2 };
int64_t ask(struct server *server, const char *name, const uint8_t id[ID]);
int64_t ask_patiently(struct server *server, const char *name, const uint8_t id[ID]);

#endif
