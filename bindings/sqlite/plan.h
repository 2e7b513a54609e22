/* What the query planner is told, and what of it comes back with the query: the text that EXPLAIN QUERY PLAN prints. It
 * says in words how the rows are found, and behind the last ": " which comparisons are handed over, in their order. */
#ifndef COLUMN_FILE_PLAN_H
#define COLUMN_FILE_PLAN_H

#include "bounds.h"
#include "files.h"

enum column { ROW, VALUE, DIGITS };

/* The rows and the numbers that a query asks for, and whether it asks by numbers at all. */
struct asked {
    struct bounds rows, values;
    bool by_value;
};

/* Chooses how the rows are found, and says what that costs. The version is of the files as they were read last, or null
 * where they could not be read. */
int plan_choose(sqlite3_index_info *info, const struct version *version);

/* What a query asks for, by the text that plan_choose gave and what is handed over. */
struct asked plan_asked(const char *text, int count, sqlite3_value **given);

#endif
