/* One piece of work for each file, on one thread or on several; what comes of them is printed in the order of the
 * files. */
#ifndef COLUMNS_WORK_H
#define COLUMNS_WORK_H

#include "result.h"
#include "task.h"

/* What is done for the file of that number. It touches nothing but the result. */
typedef void work_on(const struct task *task, size_t which, const void *more, struct result *result);

/* Called for each result, in order, before it is printed; may be null. */
typedef void work_seen(const struct task *task, size_t which, void *sum, struct result *result);

/* Does the work for each file, and gives the status of all: 2 where one is 2; else, of find, 0 where one is 0; else 1
 * where one is 1. */
int work_through(const struct task *task, work_on *work, const void *more, work_seen *seen, void *sum);

/* The status of files so far and of one more. */
int status_with(const struct task *task, int so_far, int one);

/* Prints what came of a file. */
void result_print(struct result *result);

#endif
