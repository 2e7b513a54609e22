/* Standard input, line by line. A line is taken when it has ended, and one that does not end is refused. */
#ifndef COLUMNS_LINES_H
#define COLUMNS_LINES_H

#include "result.h"

struct lines {
    struct bytes line; /* the line that is gathered, without its newline */
    uint64_t count;    /* how many were taken before it */
    size_t most;       /* the most bytes of a line */
    const char *each;  /* what a line has, as in "each line has one number" */
    const char *read;  /* what progress says of them, as in " numbers are read" */
    struct result *result;
};

void lines_begin(struct lines *lines, size_t most, const char *each, const char *read, struct result *result);
void lines_end(struct lines *lines);

/* What is done with a line; false where there is a complaint. */
typedef bool on_line(struct lines *lines, void *with);

/* Reads standard input to its end. `take` is handed each line, and `before` is asked before the first byte of one is taken; it may be
 * null. False where there is a complaint. */
bool lines_all(struct lines *lines, on_line *take, on_line *before, void *with);

/* "columns: standard input, line N: " of the line that is gathered, or of another one; what is wrong there is added behind it. */
struct bytes *lines_wrong(struct lines *lines);
struct bytes *lines_wrong_at(struct lines *lines, uint64_t number);

/* A complaint of the line that is gathered: a sentence. It gives false. */
bool lines_refuse(struct lines *lines, const char *sentence);

/* The number that a part of the line is; false where it is none, and there is a complaint. */
bool lines_number(struct lines *lines, size_t from, size_t length, uint64_t *number);

#endif
