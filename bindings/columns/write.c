/* The verbs that make files: write and rewrite. Nothing is made before all of the input was read and is good. */
#include "fascjoldi.h"
#include "lines.h"
#include "output.h"
#include "source.h"
#include "store.h"
#include "verbs.h"
#include "work.h"

/* ---- the numbers on standard input */

/* How far the input is: its lines, and the values of the file that is filled now. */
struct input {
    struct lines lines;
    uint64_t *values;
    size_t filled;
    struct result *result;
};

/* What is done where the values are as many as a file has; false where there is a complaint. */
typedef bool full_file(struct input *input, void *with);

/* The input, with what is done for a full file. */
struct filling {
    struct input *input;
    full_file *full;
    void *with;
};

/* A line that is longer is no number: zeros before one are taken up to there. */
enum { LINE_MOST = 64 };

/* A line has ended: the number that it is. */
static bool take_line(struct lines *lines, void *with)
{
    struct input *input = ((struct filling *)with)->input;
    return lines_number(lines, 0, lines->line.length, &input->values[input->filled]) && ++input->filled > 0;
}

/* A number beyond those of a full file asks first what is done with that one. */
static bool before_line(struct lines *lines, void *with)
{
    struct filling *filling = with;
    (void)lines;
    return filling->input->filled < MOST_ROWS || filling->full(filling->input, filling->with);
}

/* Reads standard input to its end. */
static bool take_all(struct input *input, full_file *full, void *with)
{
    struct filling filling = {input, full, with};
    return lines_all(&input->lines, take_line, before_line, &filling);
}

/* Whether the count is one that is wanted: whole blocks, not none unless that was said, and as many as was said. */
static bool is_right_count(const struct task *task, struct input *input)
{
    struct bytes *err = &input->result->err;
    uint64_t n = input->lines.count;
    if (task->has_count && n != task->count) {
        bytes_text(err, "columns: standard input: there are ");
        bytes_number(err, n);
        bytes_text(err, " numbers, and --rows says ");
        bytes_number(err, task->count);
        bytes_text(err, "; nothing is written\n");
    } else if (n % BLOCK != 0) {
        bytes_text(err, "columns: standard input: ");
        bytes_number(err, n);
        bytes_text(err, " numbers are no whole blocks of 1024; ");
        bytes_number(err, BLOCK - n % BLOCK);
        bytes_text(err, " more are missing\n");
    } else if (n == 0 && !task->may_be_empty && !task->has_count) {
        bytes_text(err,
            "columns: standard input: there are no numbers, and nothing is written; --empty makes a file of no rows\n");
    } else {
        return true;
    }
    input->result->status = 2;
    return false;
}

/* ---- one file */

static bool too_many(struct input *input, void *with)
{
    (void)with;
    return lines_refuse(&input->lines,
        "there are more than 262144 numbers, which is the most that a file has; --split lays them into several");
}

/* The file of the values that are there. */
static bool encode(struct input *input, uint8_t *file, size_t *length)
{
    size_t place;
    size_t number = fascjoldi_file_write(input->values, input->filled, file, LONGEST_WRITTEN, length, &place);
    if (number == FASCJOLDI_DONE)
        return true;
    refuse(input->result, "-", number, place);
    return false;
}

static void write_one(const struct task *task, struct input *input, uint8_t *file)
{
    struct store store;
    size_t length;
    if (!store_open(&store, task->files[0], task->force, input->result))
        return;
    if (take_all(input, too_many, NULL) && is_right_count(task, input) && encode(input, file, &length))
        store_put(&store, file, length, input->result);
    store_close(&store);
}

/* ---- several files: they wait in one that has no name until all of the input is there and good */

struct split {
    const struct task *task;
    uint8_t *file;
    struct store store;
    int spool;
    struct numbers lengths;
};

static bool spool_part(struct input *input, void *with)
{
    struct split *split = with;
    size_t length;
    if (!encode(input, split->file, &length))
        return false;
    if (!store_write(split->spool, split->file, length)) {
        fail_system(input->result, split->task->prefix,
            "the numbers cannot be kept while they are read: ", "; nothing is written");
        return false;
    }
    numbers_add(&split->lengths, length);
    input->filled = 0;
    return true;
}

/* PREFIX.000.col and so on; where there are more than a thousand, all have a digit more. */
static void name_part(struct bytes *name, const struct split *split, size_t which)
{
    size_t digits = 3;
    for (size_t most = 1000; most < split->lengths.length; most *= 10)
        digits++;
    name->length = 0;
    bytes_text(name, split->task->prefix);
    bytes_text(name, ".");
    size_t before = name->length;
    bytes_wide(name, which, digits);
    for (size_t i = before; name->at[i] == ' '; i++)
        name->at[i] = '0';
    bytes_text(name, ".col");
    bytes_as_text(name);
}

/* No part may be there already unless -f was said, and none behind the last: it would be taken for one of these. */
static bool parts_are_free(const struct split *split, struct result *result)
{
    struct bytes name;
    bool good = true;
    bytes_begin(&name);
    for (size_t i = 0; good && i <= split->lengths.length; i++) {
        struct stat is;
        name_part(&name, split, i);
        bool is_there = fstatat(AT_FDCWD, (const char *)name.at, &is, AT_SYMLINK_NOFOLLOW) == 0;
        if (is_there && i == split->lengths.length) {
            fail(result, (const char *)name.at,
                "is there from before, and would be taken for a part of these; remove it first", NULL);
            good = false;
        } else if (is_there && !split->task->force) {
            fail(result, (const char *)name.at, "is there already; -f replaces it", NULL);
            good = false;
        }
    }
    bytes_free(&name);
    return good;
}

/* Reads a part back from where it waited. */
static bool read_part(struct split *split, long at, size_t length, struct result *result)
{
    size_t got = 0;
    while (got < length) {
        long more = pread(split->spool, split->file + got, length - got, at + (long)got);
        if (more < 0 && errno == EINTR)
            continue;
        if (more <= 0) {
            fail_system(result, split->task->prefix, "the numbers that were read cannot be read again: ", NULL);
            return false;
        }
        got += (size_t)more;
    }
    return true;
}

/* From the first part on that gets its name no signal is heard, so that all get theirs. */
static void put_parts(struct split *split, struct result *result)
{
    struct bytes name;
    long at = 0;
    bytes_begin(&name);
    for (size_t i = 0; i < split->lengths.length; i++) {
        struct store store;
        size_t length = split->lengths.at[i];
        name_part(&name, split, i);
        if (!read_part(split, at, length, result) ||
            !store_open(&store, (const char *)name.at, split->task->force, result))
            break;
        bool good = store_put(&store, split->file, length, result);
        store_close(&store);
        if (!good) {
            if (i > 0)
                fail(result, (const char *)name.at, "the parts before this one have their names", NULL);
            break;
        }
        at += (long)length;
        if (progress_is_shown())
            progress_say("columns: ", i + 1, " of ", split->lengths.length, " files are written");
    }
    bytes_free(&name);
}

static void write_parts(const struct task *task, struct input *input, uint8_t *file)
{
    struct split split = {.task = task, .file = file};
    struct bytes name;
    bytes_begin(&name);
    numbers_begin(&split.lengths);
    name_part(&name, &split, 0);
    /* The first part says whether a file can be made there at all. */
    if (store_open(&split.store, (const char *)name.at, task->force, input->result)) {
        split.spool = store_spool(&split.store, input->result);
        if (split.spool >= 0) {
            bool good = take_all(input, spool_part, &split) && is_right_count(task, input);
            good = good && (input->filled == 0 && split.lengths.length > 0 ? true : spool_part(input, &split));
            if (good && parts_are_free(&split, input->result))
                put_parts(&split, input->result);
            close(split.spool);
        }
        store_close(&split.store);
    }
    numbers_free(&split.lengths);
    bytes_free(&name);
}

int do_write(const struct task *task)
{
    struct result result;
    result_begin(&result);
    struct input input = {.values = room_for(MOST_ROWS, sizeof(uint64_t)), .result = &result};
    uint8_t *file = room_for(LONGEST_WRITTEN, 1);
    lines_begin(&input.lines, LINE_MOST, "each line has one number", " numbers are read", &result);
    if (task->prefix != NULL)
        write_parts(task, &input, file);
    else
        write_one(task, &input, file);
    lines_end(&input.lines);
    free(input.values);
    free(file);
    int status = result.status;
    result_print(&result);
    return status;
}

/* ---- rewrite */

static void rewrite_file(const struct task *task, struct source *source, struct result *result)
{
    uint8_t *file = room_for(LONGEST_WRITTEN, 1);
    size_t length, place;
    if (source_whole(source, result)) {
        size_t number =
            fascjoldi_file_rewrite(source->bytes.at, source->bytes.length, file, LONGEST_WRITTEN, &length, &place);
        struct store store;
        if (number != FASCJOLDI_DONE) {
            refuse(result, source->name, number, place);
        } else if (store_open(&store, task->files[1], task->force, result)) {
            store_put(&store, file, length, result);
            store_close(&store);
        }
    }
    free(file);
}

int do_rewrite(const struct task *task)
{
    struct result result;
    struct source source;
    result_begin(&result);
    if (source_open(&source, task->files[0], &result)) {
        rewrite_file(task, &source, &result);
        source_close(&source);
    }
    int status = result.status;
    result_print(&result);
    return status;
}
