/* The verbs: each does its task, prints what comes of it, and gives the status. */
#ifndef COLUMNS_VERBS_H
#define COLUMNS_VERBS_H

#include "task.h"

int do_check(const struct task *task);
int do_show(const struct task *task);
int do_canonical(const struct task *task);
int do_row(const struct task *task);
int do_rows(const struct task *task);
int do_find(const struct task *task);
int do_write(const struct task *task);
int do_rewrite(const struct task *task);
int do_renumber(const struct task *task);
int do_changes(const struct task *task);

#endif
