/* A file that is held whole, and checked. */
#ifndef COLUMNS_WHOLE_H
#define COLUMNS_WHOLE_H

#include "source.h"

struct whole {
    struct source source;
    struct front front;
};

/* Opens a file, reads it whole and checks it. False where there is a complaint. */
bool whole_open(struct whole *whole, const char *name, struct result *result);
void whole_close(struct whole *whole);

/* "N blocks, M rows, edition E" */
void whole_counts(struct bytes *to, const struct whole *whole);

/* With --as-one the rows are counted on from file to file: the number of the first row of each file, and of all rows
 * behind the last. All files have to be plain ones with good contents, else there is a complaint and the answer is
 * null. */
uint64_t *rows_before(char **files, size_t count, struct result *result);

#endif
