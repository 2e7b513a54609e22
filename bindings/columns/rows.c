/* The verbs that print rows by their numbers: row and rows. */
#include "fascjoldi.h"
#include "output.h"
#include "verbs.h"
#include "whole.h"
#include "work.h"

/* ---- row */

/* The value of a row, and in how many packed words its bits stand. Blocks of differences and runs have no such count:
 * there a value is made of more than its own bits. */
static void row_of(const struct whole *whole, uint64_t row, struct result *result)
{
    uint64_t value, words;
    size_t place;
    size_t number =
        fascjoldi_file_row_at(whole->source.bytes.at, whole->source.bytes.length, row, &value, &words, &place);
    if (number == FASCJOLDI_BEYOND) {
        refuse_row(result, whole->source.name, row, whole->front.rows);
        return;
    }
    if (number != FASCJOLDI_DONE) {
        refuse(result, whole->source.name, number, place);
        return;
    }
    bytes_number(&result->out, value);
    if (words == FASCJOLDI_NO_COUNT) {
        bytes_text(&result->out, ", no count\n");
        return;
    }
    bytes_text(&result->out, ", in ");
    bytes_number(&result->out, words);
    bytes_text(&result->out, " words\n");
}

static void row_in(const char *name, uint64_t row, bool is_named, struct result *result)
{
    struct whole whole;
    if (!whole_open(&whole, name, result))
        return;
    add_name(&result->out, name, is_named);
    row_of(&whole, row, result);
    whole_close(&whole);
}

static void row_one(const struct task *task, size_t which, const void *more, struct result *result)
{
    (void)more;
    row_in(task->files[which], task->first, task->is_named, result);
}

/* A row of files that are counted as one stands in one of them. */
static void row_as_one(const struct task *task, struct result *result)
{
    uint64_t *before = rows_before(task->files, task->file_count, result);
    size_t i = 0;
    if (before == NULL)
        return;
    while (i < task->file_count && before[i + 1] <= task->first)
        i++;
    if (i == task->file_count)
        refuse_row(result, task->files[i - 1], task->first, before[i]);
    else
        row_in(task->files[i], task->first - before[i], task->is_named, result);
    free(before);
}

int do_row(const struct task *task)
{
    struct result result;
    if (!task->is_as_one)
        return work_through(task, row_one, NULL, NULL, NULL);
    result_begin(&result);
    row_as_one(task, &result);
    int status = result.status;
    result_print(&result);
    return status;
}

/* ---- rows */

/* The rows that are asked for, from one to before another. */
struct span {
    uint64_t from, until;
};

/* The rows of so many that the task asks for. A row that was given and is not there is refused. */
static bool span_of(const struct task *task, uint64_t rows, const char *name, struct span *span, struct result *result)
{
    uint64_t last = task->given == 2 ? task->second : task->first;
    if (task->given > 0 && rows <= last) {
        refuse_row(result, name, rows <= task->first ? task->first : last, rows);
        return false;
    }
    span->from = task->given > 0 ? task->first : 0;
    span->until = task->given == 2 ? task->second + 1 : rows;
    return true;
}

/* The numbers of a span of rows, which are all there. */
static bool numbers_in(struct whole *whole, const struct span *span, struct numbers *numbers, struct result *result)
{
    uint64_t *block = room_for(BLOCK, sizeof(uint64_t));
    struct cursor cursor;
    bool good = true;
    cursor_first(&cursor, &whole->front);
    for (; good && cursor.number < whole->front.blocks; cursor_next(&cursor, &whole->front)) {
        size_t from = fascjoldi_summary_place_in(span->from, cursor.number);
        size_t until = fascjoldi_summary_place_in(span->until, cursor.number);
        if (from >= until)
            continue;
        good = block_read(block, &cursor, &whole->front, &whole->source, result);
        for (size_t place = from; good && place < until && place < BLOCK; place++)
            numbers_add(numbers, block[place]);
    }
    free(block);
    return good;
}

/* The rows of one file, one a line. */
static void add_rows(
    struct whole *whole, const struct span *span, const char *name, bool is_named, struct result *result)
{
    struct numbers numbers;
    struct bytes prefix;
    numbers_begin(&numbers);
    bytes_begin(&prefix);
    add_name(&prefix, name, is_named);
    if (numbers_in(whole, span, &numbers, result)) {
        for (size_t i = 0; i < numbers.length; i++) {
            bytes_add(&result->out, prefix.at, prefix.length);
            bytes_number(&result->out, numbers.at[i]);
            bytes_byte(&result->out, '\n');
        }
    }
    bytes_free(&prefix);
    numbers_free(&numbers);
}

static void rows_one(const struct task *task, size_t which, const void *more, struct result *result)
{
    struct whole whole;
    struct span span;
    (void)more;
    if (!whole_open(&whole, task->files[which], result))
        return;
    if (span_of(task, whole.front.rows, task->files[which], &span, result))
        add_rows(&whole, &span, task->files[which], task->is_named, result);
    whole_close(&whole);
}

/* ---- rows --as-one */

struct joined {
    const uint64_t *before;
    struct span span;
};

/* The rows of one of several files that are counted as one. A file that has none of those that are asked for is not
 * read. */
static void rows_joined(const struct task *task, size_t which, const void *more, struct result *result)
{
    const struct joined *joined = more;
    uint64_t begin = joined->before[which], end = joined->before[which + 1];
    struct span span = {joined->span.from > begin ? joined->span.from - begin : 0,
        (joined->span.until < end ? joined->span.until : end) - begin};
    struct whole whole;
    if (joined->span.until <= begin || span.from >= span.until || !whole_open(&whole, task->files[which], result))
        return;
    if (whole.front.rows != end - begin)
        fail_changed(result, task->files[which]);
    else
        add_rows(&whole, &span, task->files[which], task->is_named, result);
    whole_close(&whole);
}

static int rows_as_one(const struct task *task)
{
    struct result result;
    struct joined joined;
    int status = 2;
    result_begin(&result);
    uint64_t *before = rows_before(task->files, task->file_count, &result);
    if (before != NULL) {
        size_t last = task->file_count - 1;
        joined.before = before;
        if (span_of(task, before[last + 1], task->files[last], &joined.span, &result))
            status = work_through(task, rows_joined, &joined, NULL, NULL);
        free(before);
    }
    result_print(&result);
    return status;
}

/* ---- rows -t */

/* Reads the asked rows of each file; all have to have as many. */
static bool read_side_by_side(const struct task *task, struct numbers *columns, struct result *result)
{
    for (size_t i = 0; i < task->file_count; i++) {
        struct whole whole;
        struct span span;
        if (!whole_open(&whole, task->files[i], result))
            return false;
        bool good = span_of(task, whole.front.rows, task->files[i], &span, result) &&
                    numbers_in(&whole, &span, &columns[i], result);
        whole_close(&whole);
        if (!good)
            return false;
        if (columns[i].length != columns[0].length) {
            fail(result, task->files[i],
                "has not as many rows as the first file; say which rows are wanted, or leave it out", NULL);
            return false;
        }
    }
    return true;
}

static int rows_side_by_side(const struct task *task)
{
    struct numbers *columns = room_for(task->file_count, sizeof(struct numbers));
    struct result result;
    result_begin(&result);
    for (size_t i = 0; i < task->file_count; i++)
        numbers_begin(&columns[i]);
    if (read_side_by_side(task, columns, &result)) {
        for (size_t row = 0; row < columns[0].length; row++) {
            for (size_t i = 0; i < task->file_count; i++) {
                bytes_text(&result.out, i == 0 ? "" : "\t");
                bytes_number(&result.out, columns[i].at[row]);
            }
            bytes_byte(&result.out, '\n');
        }
    }
    for (size_t i = 0; i < task->file_count; i++)
        numbers_free(&columns[i]);
    free(columns);
    int status = result.status;
    result_print(&result);
    return status;
}

int do_rows(const struct task *task)
{
    if (task->is_tabbed)
        return rows_side_by_side(task);
    if (task->is_as_one)
        return rows_as_one(task);
    return work_through(task, rows_one, NULL, NULL, NULL);
}
