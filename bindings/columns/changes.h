/* The rows at which two files differ, printed as they are found. */
#ifndef COLUMNS_CHANGES_H
#define COLUMNS_CHANGES_H

#include "source.h"

/* Prints what two files differ in. A file that did not open is null, and one of no bytes to the list. The status is 1 where they differ, and 2
 * where one is refused. */
void list_changes(struct source *left, struct source *right, struct result *result);

#endif
