/* The work on many files: threads take one file after the other, and the first thread prints what comes of them in the
 * order of the names. */
#include "work.h"
#include "output.h"

/* A thread's stack. The proved calls take some ten thousand bytes of it. */
enum { STACK = 1 << 20 };

/* Nobody has worked yet. */
enum { NO_STATUS = 3 };

struct line_up {
    const struct task *task;
    work_on *work;
    const void *more;
    pthread_mutex_t lock;
    pthread_cond_t changed;
    size_t next;    /* the file that is taken next */
    size_t printed; /* how many are printed */
    size_t ahead;   /* how many files are taken before those in front are printed */
    struct result *results;
    bool *is_ready;
};

void result_print(struct result *result)
{
    output_lines(result->out.at, result->out.length);
    complain(&result->err);
    result_free(result);
}

int status_with(const struct task *task, int so_far, int one)
{
    if (so_far == NO_STATUS || so_far == one)
        return one;
    if (so_far == 2 || one == 2)
        return 2;
    return task->verb == FIND ? 0 : 1;
}

static void say_progress(const struct task *task, size_t done)
{
    if (task->file_count > 1 && progress_is_shown())
        progress_say("columns: ", done, " of ", task->file_count, " files");
}

/* ---- threads */

static void *thread(void *with)
{
    struct line_up *line = with;
    pthread_mutex_lock(&line->lock);
    for (;;) {
        while (line->next < line->task->file_count && line->next >= line->printed + line->ahead)
            pthread_cond_wait(&line->changed, &line->lock);
        if (line->next >= line->task->file_count)
            break;
        size_t mine = line->next++;
        pthread_mutex_unlock(&line->lock);
        result_begin(&line->results[mine]);
        line->work(line->task, mine, line->more, &line->results[mine]);
        pthread_mutex_lock(&line->lock);
        line->is_ready[mine] = true;
        pthread_cond_broadcast(&line->changed);
    }
    pthread_mutex_unlock(&line->lock);
    return NULL;
}

/* Starts as many threads as are asked for and can be had. */
static size_t start(struct line_up *line, pthread_t *threads, size_t wanted)
{
    pthread_attr_t how;
    size_t started = 0;
    if (pthread_attr_init(&how) != 0 || pthread_attr_setstacksize(&how, STACK) != 0)
        return 0;
    while (started < wanted && pthread_create(&threads[started], &how, thread, line) == 0)
        started++;
    return started;
}

static void wait_for(struct line_up *line, size_t which)
{
    pthread_mutex_lock(&line->lock);
    while (!line->is_ready[which])
        pthread_cond_wait(&line->changed, &line->lock);
    pthread_mutex_unlock(&line->lock);
}

static void is_printed(struct line_up *line)
{
    pthread_mutex_lock(&line->lock);
    line->printed++;
    pthread_cond_broadcast(&line->changed);
    pthread_mutex_unlock(&line->lock);
}

/* ---- in order */

int work_through(const struct task *task, work_on *work, const void *more, work_seen *seen, void *sum)
{
    size_t count = task->file_count, threads = task->jobs < count ? task->jobs : count, started = 0;
    struct line_up line = {.task = task, .work = work, .more = more, .ahead = 4 * threads};
    pthread_t *ids = room_for(threads, sizeof(pthread_t));
    int status = NO_STATUS;
    line.results = room_for(count, sizeof(struct result));
    line.is_ready = room_for(count, sizeof(bool));
    pthread_mutex_init(&line.lock, NULL);
    pthread_cond_init(&line.changed, NULL);
    if (threads > 1)
        started = start(&line, ids, threads);
    for (size_t i = 0; i < count; i++) {
        struct result *result = &line.results[i];
        if (started > 0) {
            wait_for(&line, i);
        } else {
            result_begin(result);
            work(task, i, more, result);
        }
        if (seen != NULL)
            seen(task, i, sum, result);
        status = status_with(task, status, result->status);
        result_print(result);
        is_printed(&line);
        say_progress(task, i + 1);
    }
    for (size_t i = 0; i < started; i++)
        pthread_join(ids[i], NULL);
    free(ids);
    free(line.results);
    free(line.is_ready);
    return status;
}
