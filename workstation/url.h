/* The name of a sheet in a database: postgresql://[USER[:PASSWORD]@][HOST[:PORT]]/DATABASE/SHEET[?PARAMETERS]. All but
   the sheet is libpq's own form. */
#ifndef URL_H
#define URL_H

#include "sheet.h"

struct url {
    char name[SHEET_NAME_MOST + 1]; /* of the sheet, or "" */
    char *uri;                      /* of the database, as libpq takes it */
    char *shown;                    /* the whole, without a password: what may be printed */
};

/* Reads one that has a sheet, or that names a database alone. Ends the program where it can't be understood. */
void url_read(struct url *url, const char *given, int has_sheet);

#endif
