/* The rows, or the numbers, that a query asks for: what lies between two bounds, both included. */
#ifndef COLUMN_FILE_BOUNDS_H
#define COLUMN_FILE_BOUNDS_H

#include "sqlite3ext.h"
#include <stdbool.h>
#include <stdint.h>

struct bounds {
    uint64_t low, high;
    bool is_none; /* nothing lies between them */
};

/* All of them. */
struct bounds bounds_all(void);

/* What a comparison leaves of them: = > < and, with `or_equal`, >= <=. At least what SQLite takes for true is left: it
 * looks at each row again. So a text or a blob that is no number, with which SQLite compares in its own way, leaves
 * all. */
void bounds_take(struct bounds *bounds, char comparison, bool or_equal, sqlite3_value *with);

#endif
