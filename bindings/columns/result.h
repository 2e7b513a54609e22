/* What comes of one file: lines for standard output, lines for standard error, and a status; and the sentences of a
 * refusal. */
#ifndef COLUMNS_RESULT_H
#define COLUMNS_RESULT_H

#include "room.h"

/* 0 done, 1 nothing was found or there is a difference, 2 something was refused or failed. */
struct result {
    struct bytes out;
    struct bytes err;
    int status;
    uint64_t blocks;
    uint64_t rows;
};

void result_begin(struct result *result);
void result_free(struct result *result);

/* A complaint: the file's name, and a sentence in two parts, of which the second may be null. The status is 2 then. */
void fail(struct result *result, const char *name, const char *sentence, const char *more);

/* The same with the system's words for the last error between the two. */
void fail_system(struct result *result, const char *name, const char *sentence, const char *more);

/* A refusal by the number and the place that a proved call gave, with a sentence that says what they mean and what to
 * do. */
void refuse(struct result *result, const char *name, size_t number, size_t place);

/* The refusal of a row that is not there, which says which is the last one. */
void refuse_row(struct result *result, const char *name, uint64_t row, uint64_t rows);

/* A number, its place, and what they mean, as in a refusal. */
void add_answer(struct bytes *to, size_t number, size_t place);

/* The file's name in front of a line, where that is asked for. */
void add_name(struct bytes *to, const char *name, bool named);

#endif
