/* The verb find: the rows whose number lies between two bounds. Of a plain file only the contents are read, and the
 * bodies that the search opens. */
#include "fascjoldi.h"
#include "output.h"
#include "verbs.h"
#include "whole.h"
#include "work.h"

/* A column whose numbers are printed beside the rows that are found (--with). Its blocks are gone through as those of
 * the searched file are. */
struct beside {
    struct source source;
    struct front front;
    struct cursor cursor;
    uint64_t *block;
};

/* What one search has: the file, the room for a block and for the rows found in it, and how far it is. */
struct search {
    const struct task *task;
    const char *name;
    struct bytes prefix; /* what each line begins with */
    struct source source;
    struct front front;
    uint64_t *block;
    uint64_t *rows;
    uint64_t before; /* the rows of the files before this one, with --as-one */
    size_t found, opened;
    struct beside *beside;
    size_t beside_count;
};

/* What is known of the files before they are searched: with --as-one the rows before each. */
struct known {
    const uint64_t *before;
};

/* ---- other columns */

static bool beside_open(struct beside *beside, const char *name, uint64_t rows, struct result *result)
{
    if (!source_open(&beside->source, name, result))
        return false;
    if (!front_read(&beside->front, &beside->source, result)) {
        source_close(&beside->source);
        return false;
    }
    beside->block = room_for(BLOCK, sizeof(uint64_t));
    cursor_first(&beside->cursor, &beside->front);
    if (beside->front.rows == rows)
        return true;
    fail(result, name, "has not as many rows as the file that is searched, so its rows do not belong to those", NULL);
    return false;
}

static bool beside_block(struct beside *beside, size_t number, struct result *result)
{
    while (beside->cursor.number < number && beside->cursor.number < beside->front.blocks)
        cursor_next(&beside->cursor, &beside->front);
    return block_read(beside->block, &beside->cursor, &beside->front, &beside->source, result);
}

static void beside_close(struct beside *beside)
{
    if (beside->block == NULL)
        return;
    free(beside->block);
    front_free(&beside->front);
    source_close(&beside->source);
}

/* ---- one block */

static void add_found(struct search *search, uint64_t row, struct bytes *out)
{
    size_t place = row % BLOCK;
    bytes_add(out, search->prefix.at, search->prefix.length);
    bytes_number(out, search->before + row);
    bytes_byte(out, ' ');
    bytes_number(out, search->block[place]);
    for (size_t i = 0; i < search->beside_count; i++) {
        bytes_byte(out, ' ');
        bytes_number(out, search->beside[i].block[place]);
    }
    bytes_byte(out, '\n');
}

static bool search_block(struct search *search, const struct cursor *cursor, struct result *result)
{
    const struct task *task = search->task;
    size_t found, opened, place;
    if (!block_read(search->block, cursor, &search->front, &search->source, result))
        return false;
    fascjoldi_search_rows(
        search->block, BLOCK, cursor->number, task->first, task->second, search->rows, BLOCK, &found, &opened, &place);
    search->found += found;
    search->opened += opened;
    for (size_t i = 0; found > 0 && i < search->beside_count; i++)
        if (!beside_block(&search->beside[i], cursor->number, result))
            return false;
    for (size_t i = 0; i < found; i++)
        add_found(search, search->rows[i], &result->out);
    return true;
}

static bool search_blocks(struct search *search, struct result *result)
{
    const struct front *front = &search->front;
    struct cursor cursor;
    cursor_first(&cursor, front);
    for (; cursor.number < front->blocks; cursor_next(&cursor, front))
        if (fascjoldi_search_opens(
                front->at, front->length, cursor.number, search->task->first, search->task->second) &&
            !search_block(search, &cursor, result))
            return false;
    if (source_is_same(&search->source))
        return true;
    fail_changed(result, search->name);
    return false;
}

/* ---- one file */

static void add_counts(struct bytes *to, uint64_t found, uint64_t opened, uint64_t blocks)
{
    bytes_text(to, "found ");
    bytes_number(to, found);
    bytes_text(to, ", opened ");
    bytes_number(to, opened);
    bytes_text(to, " of ");
    bytes_number(to, blocks);
    bytes_text(to, " blocks\n");
}

static void search_front(struct search *search, struct result *result)
{
    const struct task *task = search->task;
    bool good = true;
    search->beside = room_for(task->with_count, sizeof(struct beside));
    for (size_t i = 0; good && i < task->with_count; i++) {
        good = beside_open(&search->beside[i], task->with[i], search->front.rows, result);
        search->beside_count++;
    }
    if (good && search_blocks(search, result)) {
        result->status = search->found == 0 ? 1 : 0;
        result->rows = search->found;
        result->blocks = search->opened;
        if (!task->is_quiet && !task->is_as_one) {
            bytes_add(&result->out, search->prefix.at, search->prefix.length);
            add_counts(&result->out, search->found, search->opened, search->front.blocks);
        }
    }
    for (size_t i = 0; i < search->beside_count; i++)
        beside_close(&search->beside[i]);
    free(search->beside);
}

/* Whether the file has as many rows as when the files were counted on. */
static bool is_as_counted(const struct search *search, const struct known *known, size_t which)
{
    return known == NULL || search->front.rows == known->before[which + 1] - known->before[which];
}

static void find_one(const struct task *task, size_t which, const void *more, struct result *result)
{
    const struct known *known = more;
    struct search search = {
        .task = task, .name = task->files[which], .before = known == NULL ? 0 : known->before[which]};
    if (!source_open(&search.source, search.name, result))
        return;
    if (front_read(&search.front, &search.source, result)) {
        bytes_begin(&search.prefix);
        add_name(&search.prefix, search.name, task->is_named);
        search.block = room_for(BLOCK, sizeof(uint64_t));
        search.rows = room_for(BLOCK, sizeof(uint64_t));
        if (is_as_counted(&search, known, which))
            search_front(&search, result);
        else
            fail_changed(result, search.name);
        bytes_free(&search.prefix);
        free(search.block);
        free(search.rows);
        front_free(&search.front);
    }
    source_close(&search.source);
}

/* ---- files that are counted as one */

struct sum {
    uint64_t found, opened;
};

static void count_on(const struct task *task, size_t which, void *with, struct result *result)
{
    struct sum *sum = with;
    (void)task;
    (void)which;
    sum->found += result->rows;
    sum->opened += result->blocks;
}

static int find_as_one(const struct task *task)
{
    struct sum sum = {0, 0};
    struct result result;
    result_begin(&result);
    result.status = 2;
    uint64_t *before = rows_before(task->files, task->file_count, &result);
    if (before != NULL) {
        struct known known = {before};
        result.status = work_through(task, find_one, &known, count_on, &sum);
        if (result.status != 2 && !task->is_quiet)
            add_counts(&result.out, sum.found, sum.opened, before[task->file_count] / BLOCK);
        free(before);
    }
    int status = result.status;
    result_print(&result);
    return status;
}

int do_find(const struct task *task)
{
    if (task->is_as_one)
        return find_as_one(task);
    return work_through(task, find_one, NULL, NULL, NULL);
}
