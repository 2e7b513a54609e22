/* The verbs that look at files: check, show and canonical. */
#include "fascjoldi.h"
#include "output.h"
#include "verbs.h"
#include "whole.h"
#include "work.h"

/* ---- check */

static void check_one(const struct task *task, size_t which, const void *more, struct result *result)
{
    struct whole whole;
    (void)more;
    if (!whole_open(&whole, task->files[which], result))
        return;
    add_name(&result->out, task->files[which], task->is_named || task->is_as_one);
    bytes_text(&result->out, "ok, ");
    whole_counts(&result->out, &whole);
    result->blocks = whole.front.blocks;
    result->rows = whole.front.rows;
    if (!task->is_as_one)
        bytes_text(&result->out, "\n");
    whole_close(&whole);
}

/* What the files come to that are counted as one, as far as none is refused. */
struct sum {
    uint64_t blocks, rows;
    bool is_broken;
};

static void count_on(const struct task *task, size_t which, void *with, struct result *result)
{
    struct sum *sum = with;
    (void)which;
    if (!task->is_as_one)
        return;
    sum->is_broken = sum->is_broken || result->status != 0;
    if (result->status != 0)
        return;
    if (!sum->is_broken && result->rows > 0) {
        bytes_text(&result->out, ", rows ");
        bytes_number(&result->out, sum->rows);
        bytes_text(&result->out, " to ");
        bytes_number(&result->out, sum->rows + result->rows - 1);
    }
    bytes_text(&result->out, "\n");
    sum->blocks += result->blocks;
    sum->rows += result->rows;
}

int do_check(const struct task *task)
{
    struct sum sum = {0, 0, false};
    struct bytes line;
    int status = work_through(task, check_one, NULL, count_on, &sum);
    if (!task->is_as_one)
        return status;
    if (sum.is_broken) {
        complain_text("a file is refused, so the rows behind it are not counted on");
        return 2;
    }
    bytes_begin(&line);
    bytes_text(&line, "as one: ");
    bytes_number(&line, task->file_count);
    bytes_text(&line, " files, ");
    bytes_number(&line, sum.blocks);
    bytes_text(&line, " blocks, ");
    bytes_number(&line, sum.rows);
    bytes_text(&line, " rows\n");
    output_lines(line.at, line.length);
    bytes_free(&line);
    return status;
}

/* ---- show */

/* A block in a line. */
struct summary {
    uint8_t kind, width;
    uint32_t length;
    uint64_t reference, smallest, largest;
};

/* The smallest and largest number are those of the block, since the contents of edition 1 say none. */
static struct summary summary_of(const struct whole *whole, const struct cursor *cursor, uint64_t *block)
{
    const struct front *front = &whole->front;
    const uint8_t *body = whole->source.bytes.at + cursor->start;
    struct summary summary;
    size_t place;
    fascjoldi_body_block_out(front->at, front->length, cursor->number, body, cursor->length, block, BLOCK, &place);
    fascjoldi_summary_of_block(front->at, front->length, cursor->number, block, BLOCK, &summary.kind, &summary.width,
        &summary.length, &summary.reference, &summary.smallest, &summary.largest);
    return summary;
}

/* Bytes a row, with three places behind the point and no more, and spaces before them up to a width. */
static void add_bytes_a_row(struct bytes *to, uint32_t bytes, uint32_t rows, size_t width)
{
    uint64_t thousandths = fascjoldi_summary_thousandths(bytes, rows);
    bytes_wide(to, thousandths / 1000, width);
    bytes_text(to, ".");
    bytes_number(to, thousandths / 100 % 10);
    bytes_number(to, thousandths / 10 % 10);
    bytes_number(to, thousandths % 10);
}

/* The kinds by their names, each between two spaces and as wide as the longest. */
static const char *const kinds[] = {"  packed       ", "  frame        ", "  differences  ", "  runs         "};

static void show_block(struct bytes *to, size_t number, const struct summary *summary)
{
    size_t marks = fascjoldi_summary_marks(summary->width);
    bytes_wide(to, number, 5);
    bytes_text(to, kinds[summary->kind < 3 ? summary->kind : 3]);
    bytes_wide(to, summary->width, 5);
    bytes_wide(to, summary->reference, 22);
    bytes_wide(to, summary->smallest, 22);
    bytes_wide(to, summary->largest, 22);
    bytes_wide(to, summary->length, 7);
    add_bytes_a_row(to, summary->length, BLOCK, 7);
    if (marks > 0)
        bytes_text(to, "  ");
    bytes_times(to, '#', marks);
    bytes_text(to, "\n");
}

/* ---- show --plot */

/* The columns of the terminal that the range of all blocks is drawn in. */
enum { PLOT = 48 };

struct plot {
    uint64_t smallest, largest;
};

/* In which of them a number stands. */
static size_t plot_at(const struct plot *plot, uint64_t number)
{
    uint64_t step = (plot->largest - plot->smallest) / PLOT + 1;
    return (size_t)((number - plot->smallest) / step);
}

static void plot_block(struct bytes *to, const struct plot *plot, size_t number, const struct summary *summary)
{
    size_t from = plot_at(plot, summary->smallest), until = plot_at(plot, summary->largest) + 1;
    bytes_wide(to, number, 5);
    bytes_wide(to, summary->width, 7);
    bytes_text(to, "  |");
    bytes_times(to, ' ', from);
    bytes_times(to, '#', until - from);
    bytes_times(to, ' ', PLOT - until);
    bytes_text(to, "|  ");
    bytes_number(to, summary->smallest);
    bytes_text(to, " to ");
    bytes_number(to, summary->largest);
    bytes_text(to, "\n");
}

static void plot_heading(struct bytes *to, const struct plot *plot, size_t blocks)
{
    bytes_text(to, "block  width  ");
    if (blocks == 0) {
        bytes_text(to, "no rows\n");
        return;
    }
    bytes_text(to, "from ");
    bytes_number(to, plot->smallest);
    bytes_text(to, " to ");
    bytes_number(to, plot->largest);
    bytes_text(to, ", a # where the block has or may have numbers\n");
}

/* ---- show, the lines */

static void show_totals(struct bytes *to, const struct whole *whole)
{
    whole_counts(to, whole);
    bytes_text(to, ", ");
    bytes_number(to, whole->source.size);
    bytes_text(to, " bytes, ");
    add_bytes_a_row(to, (uint32_t)whole->source.size, (uint32_t)whole->front.rows, 1);
    bytes_text(to, " bytes/row\n");
}

static struct summary *summaries_of(const struct whole *whole, struct plot *plot)
{
    struct summary *summaries = room_for(whole->front.blocks, sizeof(struct summary));
    uint64_t *block = room_for(BLOCK, sizeof(uint64_t));
    struct cursor cursor;
    plot->smallest = UINT64_MAX;
    plot->largest = 0;
    cursor_first(&cursor, &whole->front);
    while (cursor.number < whole->front.blocks) {
        struct summary *one = &summaries[cursor.number];
        *one = summary_of(whole, &cursor, block);
        plot->smallest = one->smallest < plot->smallest ? one->smallest : plot->smallest;
        plot->largest = one->largest > plot->largest ? one->largest : plot->largest;
        cursor_next(&cursor, &whole->front);
    }
    free(block);
    return summaries;
}

static void show_lines(const struct task *task, const char *name, const struct whole *whole, struct bytes *out)
{
    struct plot plot;
    struct summary *summaries = summaries_of(whole, &plot);
    add_name(out, name, task->is_named);
    if (task->is_plotted)
        plot_heading(out, &plot, whole->front.blocks);
    else
        bytes_text(out, "block  kind         width             reference              smallest               largest  "
                        "bytes  bytes/row  a # for 4 bits\n");
    for (size_t i = 0; i < whole->front.blocks; i++) {
        add_name(out, name, task->is_named);
        if (task->is_plotted)
            plot_block(out, &plot, i, &summaries[i]);
        else
            show_block(out, i, &summaries[i]);
    }
    add_name(out, name, task->is_named);
    show_totals(out, whole);
    free(summaries);
}

static void show_one(const struct task *task, size_t which, const void *more, struct result *result)
{
    struct whole whole;
    (void)more;
    if (!whole_open(&whole, task->files[which], result))
        return;
    show_lines(task, task->files[which], &whole, &result->out);
    whole_close(&whole);
}

int do_show(const struct task *task)
{
    return work_through(task, show_one, NULL, NULL, NULL);
}

/* ---- canonical */

/* Of a readable file 9 says that it is of edition 1, and 17 that a block is not ours. */
static void canonical_one(const struct task *task, size_t which, const void *more, struct result *result)
{
    struct whole whole;
    size_t place;
    (void)more;
    if (!whole_open(&whole, task->files[which], result))
        return;
    size_t number = fascjoldi_file_check_canonical(whole.source.bytes.at, whole.source.bytes.length, &place);
    add_name(&result->out, task->files[which], task->is_named);
    if (number == FASCJOLDI_DONE) {
        bytes_text(&result->out, "ok, this is what our writer gives\n");
    } else {
        bytes_text(&result->out, "differs ");
        if (number == FASCJOLDI_EDITION)
            bytes_text(&result->out,
                "9 0: the file is of edition 1, and our writer gives edition 2; `columns rewrite` makes one");
        else
            add_answer(&result->out, number, place);
        bytes_text(&result->out, "\n");
        result->status = 1;
    }
    whole_close(&whole);
}

int do_canonical(const struct task *task)
{
    return work_through(task, canonical_one, NULL, NULL, NULL);
}
