/* What comes of one file, and the sentences of a refusal. */
#include "result.h"
#include "fascjoldi.h"

void result_begin(struct result *result)
{
    bytes_begin(&result->out);
    bytes_begin(&result->err);
    result->status = 0;
    result->blocks = result->rows = 0;
}

void result_free(struct result *result)
{
    bytes_free(&result->out);
    bytes_free(&result->err);
}

/* No line of a file that fails half-way is printed. */
static struct bytes *complaint(struct result *result, const char *name)
{
    result->status = 2;
    result->out.length = 0;
    bytes_name(&result->err, name);
    bytes_text(&result->err, ": ");
    return &result->err;
}

void fail(struct result *result, const char *name, const char *sentence, const char *more)
{
    struct bytes *err = complaint(result, name);
    bytes_text(err, sentence);
    if (more != NULL)
        bytes_text(err, more);
    bytes_text(err, "\n");
}

void fail_system(struct result *result, const char *name, const char *sentence, const char *more)
{
    const char *why = strerrordesc_np(errno);
    struct bytes *err = complaint(result, name);
    bytes_text(err, sentence);
    bytes_text(err, why == NULL ? "an error without a name" : why);
    if (more != NULL)
        bytes_text(err, more);
    bytes_text(err, "\n");
}

/* What a number means. A sentence that speaks of the place has it between its two parts. */
struct meaning {
    size_t number;
    const char *before;
    const char *behind;
};

static const struct meaning meanings[] = {
    {FASCJOLDI_CUT, "the file is cut short, it ends before its contents or its bodies do; fetch it again", NULL},
    {FASCJOLDI_EDITION,
        "this is no column file of edition 1 or 2 with at most 256 blocks; look whether it is the right file", NULL},
    {FASCJOLDI_BAD_ENTRY, "entry ",
        " of the contents is not as laid out: its kind, width, length, reference or range cannot be; fetch the file "
        "again"},
    {FASCJOLDI_OVER, "there are bytes behind the last body, as where two files were joined; fetch it again", NULL},
    {FASCJOLDI_RUNS, "block ",
        " has a run index at or beyond the number of its run values, so its rows cannot be told; fetch the file again"},
    {FASCJOLDI_RANGE, "block ",
        " has another smallest or largest value than the contents say: one of the two is damaged; fetch the file "
        "again"},
    {FASCJOLDI_FOREIGN, "block ", " is not as our writer would write it; `columns rewrite` makes a file that is"},
};

void add_answer(struct bytes *to, size_t number, size_t place)
{
    bytes_number(to, number);
    bytes_text(to, " ");
    bytes_number(to, place);
    bytes_text(to, ": ");
    for (size_t i = 0; i < sizeof(meanings) / sizeof(meanings[0]); i++) {
        if (meanings[i].number != number)
            continue;
        bytes_text(to, meanings[i].before);
        if (meanings[i].behind != NULL) {
            bytes_number(to, place);
            bytes_text(to, meanings[i].behind);
        }
        return;
    }
    bytes_text(to, "the call cannot be made so; this is a fault of the program, please say how it came");
}

void refuse(struct result *result, const char *name, size_t number, size_t place)
{
    struct bytes *err = complaint(result, name);
    bytes_text(err, "refused ");
    add_answer(err, number, place);
    bytes_text(err, "\n");
}

void refuse_row(struct result *result, const char *name, uint64_t row, uint64_t rows)
{
    struct bytes *err = complaint(result, name);
    bytes_text(err, "refused ");
    bytes_number(err, FASCJOLDI_BEYOND);
    bytes_text(err, " 0: there is no row ");
    bytes_number(err, row);
    if (rows == 0) {
        bytes_text(err, "; the file has no rows\n");
    } else {
        bytes_text(err, "; the last one is row ");
        bytes_number(err, rows - 1);
        bytes_text(err, "\n");
    }
}

void add_name(struct bytes *to, const char *name, bool named)
{
    if (!named)
        return;
    bytes_name(to, name);
    bytes_text(to, ": ");
}
