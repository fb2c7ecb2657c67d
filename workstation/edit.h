/* `plan edit`: a sheet as CSV in the planner's editor, and what is saved of it. */
#ifndef EDIT_H
#define EDIT_H

#include "save.h"

/* Opens the sheet in the editor that VISUAL or EDITOR names, shows what was changed, checks it, asks where there is a
   reason to, and saves it all as one save. With `resume` it goes on from the text that was kept, laid over the sheet as
   it is now. */
int edit(const char *file, const char *who, int resume);

#endif
