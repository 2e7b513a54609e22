/* The program for people who have column files and a shell. What it decides is proved in the calls that it makes
 * (include/fascjoldi.h), and so are the numbers in texts; here words are parsed, files read and written, lines printed,
 * and signals waited for. */
#include "output.h"
#include "signals.h"
#include "task.h"
#include "verbs.h"

static int do_task(const struct task *task)
{
    switch (task->verb) {
    case CHECK: return do_check(task);
    case SHOW: return do_show(task);
    case ROWS: return do_rows(task);
    case ROW: return do_row(task);
    case FIND: return do_find(task);
    case WRITE: return do_write(task);
    case REWRITE: return do_rewrite(task);
    case RENUMBER: return do_renumber(task);
    case CANONICAL: return do_canonical(task);
    case CHANGES: return do_changes(task);
    case VERBS: break;
    }
    return 2;
}

int main(int count, char **words)
{
    struct task task;
    output_begin();
    signals_begin();
    task_read(&task, count, words);
    int status = do_task(&task);
    output_end();
    return status;
}
