/* The verb renumber: a rename of numbers, or a look at what it would do. The pairs are read and sorted here; whether they may be taken, and
 * what becomes of each row, a proved call says. */
#include "changes.h"
#include "fascjoldi.h"
#include "lines.h"
#include "output.h"
#include "source.h"
#include "store.h"
#include "verbs.h"
#include "work.h"

/* ---- the pairs on standard input */

struct pair {
    uint64_t before, after; /* the old number and the new one */
    uint64_t line;
};

struct pairs {
    struct pair *at;
    size_t length, size;
};

/* A line that is longer is no pair. */
enum { LINE_MOST = 128 };

static bool is_blank(uint8_t byte)
{
    return byte == ' ' || byte == '\t';
}

/* The end of the word that begins at a place of the line. */
static size_t word_end(const struct bytes *line, size_t from)
{
    while (from < line->length && !is_blank(line->at[from]))
        from++;
    return from;
}

static size_t blanks_end(const struct bytes *line, size_t from)
{
    while (from < line->length && is_blank(line->at[from]))
        from++;
    return from;
}

static void pairs_add(struct pairs *pairs, struct pair pair)
{
    if (pairs->length == pairs->size) {
        pairs->size = 2 * pairs->size + 1024;
        pairs->at = room_again(pairs->at, pairs->size, sizeof(struct pair));
    }
    pairs->at[pairs->length++] = pair;
}

/* A line has ended: two numbers with blanks between them. */
static bool take_pair(struct lines *lines, void *with)
{
    const struct bytes *line = &lines->line;
    struct pair pair = {.line = lines->count + 1};
    size_t first = blanks_end(line, 0), first_end = word_end(line, first);
    size_t second = blanks_end(line, first_end), second_end = word_end(line, second);
    if (!lines_number(lines, first, first_end - first, &pair.before))
        return false;
    if (second == second_end)
        return lines_refuse(lines, "one number stands there; each line has two, the old number and the new one");
    if (!lines_number(lines, second, second_end - second, &pair.after))
        return false;
    if (blanks_end(line, second_end) < line->length)
        return lines_refuse(lines, "more than two numbers stand there; each line has two, the old number and the new one");
    pairs_add(with, pair);
    return true;
}

static int by_old_number(const void *left, const void *right)
{
    const struct pair *a = left, *b = right;
    if (a->before != b->before)
        return a->before < b->before ? -1 : 1;
    return a->line < b->line ? -1 : a->line > b->line;
}

/* An old number has one line. Of those that have more, the one that comes first a second time is said. */
static bool are_single(struct lines *lines, const struct pairs *pairs)
{
    const struct pair *found = NULL;
    for (size_t i = 1; i < pairs->length; i++)
        if (pairs->at[i - 1].before == pairs->at[i].before && (found == NULL || pairs->at[i].line < found->line))
            found = &pairs->at[i];
    if (found == NULL)
        return true;
    struct bytes *err = lines_wrong_at(lines, found->line);
    bytes_text(err, "the old number ");
    bytes_number(err, found->before);
    bytes_text(err, " stands in line ");
    bytes_number(err, found[-1].line);
    bytes_text(err, " too; it can become one number only, and nothing is written\n");
    return false;
}

/* ---- the lists that the call takes */

struct lists {
    size_t length;
    uint64_t *before, *after, *order;
};

/* A new number with the place of its pair. */
struct placed {
    uint64_t number, place;
};

static int by_number(const void *left, const void *right)
{
    const struct placed *a = left, *b = right;
    if (a->number != b->number)
        return a->number < b->number ? -1 : 1;
    return a->place < b->place ? -1 : a->place > b->place;
}

static void lists_begin(struct lists *lists, const struct pairs *pairs)
{
    struct placed *placed = room_for(pairs->length, sizeof(struct placed));
    lists->length = pairs->length;
    lists->before = room_for(pairs->length, sizeof(uint64_t));
    lists->after = room_for(pairs->length, sizeof(uint64_t));
    lists->order = room_for(pairs->length, sizeof(uint64_t));
    for (size_t i = 0; i < pairs->length; i++) {
        lists->before[i] = pairs->at[i].before;
        lists->after[i] = pairs->at[i].after;
        placed[i] = (struct placed){pairs->at[i].after, i};
    }
    qsort(placed, pairs->length, sizeof(struct placed), by_number);
    for (size_t i = 0; i < pairs->length; i++)
        lists->order[i] = placed[i].place;
    free(placed);
}

static void lists_free(struct lists *lists)
{
    free(lists->before);
    free(lists->after);
    free(lists->order);
}

/* The place of a number in a rising list, and its length where it is not there. */
static size_t place_of(const uint64_t *list, size_t length, uint64_t number)
{
    size_t low = 0, high = length;
    while (low < high) {
        size_t middle = low + (high - low) / 2;
        if (list[middle] < number)
            low = middle + 1;
        else
            high = middle;
    }
    return low < length && list[low] == number ? low : length;
}

/* ---- refusals */

/* The lowest other pair that has the same new number. */
static const struct pair *other_of(const struct pairs *pairs, size_t place)
{
    for (size_t i = 0; i < pairs->length; i++)
        if (i != place && pairs->at[i].after == pairs->at[place].after)
            return &pairs->at[i];
    return &pairs->at[place];
}

static void refuse_twice(struct lines *lines, const struct pairs *pairs, size_t place)
{
    struct bytes *err = lines_wrong_at(lines, pairs->at[place].line);
    bytes_text(err, "refused 21: the new number ");
    bytes_number(err, pairs->at[place].after);
    bytes_text(err, " stands in line ");
    bytes_number(err, other_of(pairs, place)->line);
    bytes_text(err, " too, and two numbers would become one; nothing is written\n");
}

static void refuse_taken(struct result *result, struct source *source, const struct pairs *pairs, size_t row)
{
    uint64_t value, words, line = 0;
    size_t place;
    if (fascjoldi_file_row_at(source->bytes.at, source->bytes.length, row, &value, &words, &place) != FASCJOLDI_DONE)
        stop_at_once("a row that was refused is not there; this is a fault of the program, please say how it came");
    for (size_t i = 0; i < pairs->length && line == 0; i++)
        if (pairs->at[i].after == value)
            line = pairs->at[i].line;
    result->status = 2;
    bytes_name(&result->err, source->name);
    bytes_text(&result->err, ": refused 22 ");
    bytes_number(&result->err, row);
    bytes_text(&result->err, ": row ");
    bytes_number(&result->err, row);
    bytes_text(&result->err, " has the number ");
    bytes_number(&result->err, value);
    bytes_text(&result->err, ", which is no old number and is the new one of line ");
    bytes_number(&result->err, line);
    bytes_text(&result->err, ": two numbers would become one; list it too, or choose another new number\n");
}

/* ---- the work */

/* How many of the pairs have a row, in a file that was taken. */
static bool count_used(struct source *source, const struct lists *lists, size_t *used, struct result *result)
{
    struct front front;
    struct cursor cursor;
    bool good = true;
    *used = 0;
    if (!front_read(&front, source, result))
        return false;
    bool *is_used = room_for(lists->length, sizeof(bool));
    uint64_t *block = room_for(BLOCK, sizeof(uint64_t));
    for (cursor_first(&cursor, &front); good && cursor.number < front.blocks; cursor_next(&cursor, &front)) {
        good = block_read(block, &cursor, &front, source, result);
        for (size_t i = 0; good && i < BLOCK; i++) {
            size_t place = place_of(lists->before, lists->length, block[i]);
            if (place < lists->length && !is_used[place]) {
                is_used[place] = true;
                ++*used;
            }
        }
    }
    result->rows = front.rows;
    free(block);
    free(is_used);
    front_free(&front);
    return good;
}

/* "renumbered K of M rows, U of N pairs have no row" */
static void say_done(struct result *result, size_t changed, size_t unused, size_t pairs)
{
    struct bytes *out = &result->out;
    bytes_text(out, "renumbered ");
    bytes_number(out, changed);
    bytes_text(out, " of ");
    bytes_number(out, result->rows);
    bytes_text(out, " rows, ");
    bytes_number(out, unused);
    bytes_text(out, " of ");
    bytes_number(out, pairs);
    bytes_text(out, " pairs have no row\n");
}

/* What would change: the list of the file and of the one that would be written, which is held. */
static void show_changes(struct source *source, const uint8_t *file, size_t length, struct result *result)
{
    struct source renumbered = {.name = source->name, .fd = -1, .is_held = true, .size = length};
    bytes_begin(&renumbered.bytes);
    bytes_add(&renumbered.bytes, file, length);
    list_changes(source, &renumbered, result);
    /* That rows differ is what was asked for. */
    result->status = result->status == 2 ? 2 : 0;
    bytes_free(&renumbered.bytes);
}

static void renumber_with(
    const struct task *task, struct source *source, struct lines *lines, const struct pairs *pairs, struct result *result)
{
    struct lists lists;
    uint8_t *file = room_for(LONGEST_WRITTEN, 1);
    size_t length, changed, place, used;
    lists_begin(&lists, pairs);
    size_t number = fascjoldi_file_renumber(source->bytes.at, source->bytes.length, lists.before, lists.length, lists.after,
        lists.length, lists.order, lists.length, file, LONGEST_WRITTEN, &length, &changed, &place);
    if (number == FASCJOLDI_TWICE) {
        refuse_twice(lines, pairs, place);
    } else if (number == FASCJOLDI_TAKEN) {
        refuse_taken(result, source, pairs, place);
    } else if (number != FASCJOLDI_DONE) {
        refuse(result, source->name, number, place);
    } else if (task->is_dry) {
        show_changes(source, file, length, result);
    } else if (count_used(source, &lists, &used, result)) {
        struct store store;
        if (store_open(&store, task->files[1], task->force, result)) {
            if (store_put(&store, file, length, result))
                say_done(result, changed, lists.length - used, lists.length);
            store_close(&store);
        }
    }
    lists_free(&lists);
    free(file);
}

/* Whether the name of the new file can be had is looked at before the input is read, which may be typed. */
static bool name_is_free(const struct task *task, struct result *result)
{
    struct store store;
    if (task->is_dry)
        return true;
    if (!store_open(&store, task->files[1], task->force, result))
        return false;
    store_close(&store);
    return true;
}

static void renumber_file(const struct task *task, struct source *source, struct result *result)
{
    struct lines lines;
    struct pairs pairs = {.at = room_for(1, sizeof(struct pair)), .size = 1};
    lines_begin(&lines, LINE_MOST, "each line has two numbers, the old one and the new one,", " pairs are read", result);
    if (source_whole(source, result) && name_is_free(task, result) && lines_all(&lines, take_pair, NULL, &pairs)) {
        qsort(pairs.at, pairs.length, sizeof(struct pair), by_old_number);
        if (are_single(&lines, &pairs))
            renumber_with(task, source, &lines, &pairs, result);
    }
    lines_end(&lines);
    free(pairs.at);
}

int do_renumber(const struct task *task)
{
    struct result result;
    struct source source;
    result_begin(&result);
    if (source_open(&source, task->files[0], &result)) {
        renumber_file(task, &source, &result);
        source_close(&source);
    }
    int status = result.status;
    result_print(&result);
    return status;
}
