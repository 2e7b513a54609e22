/* The verb changes: the rows at which two files differ. What is read and what is printed, and in which order, a proved
 * machine says; here its wishes are granted one after another. A file that does not open, or cannot be read, is one of
 * no bytes to it. */
#include "changes.h"
#include "fascjoldi.h"
#include "output.h"
#include "source.h"
#include "verbs.h"
#include "work.h"

enum { PARTS = 2, SIDES = 2 };

struct side {
    struct source *source; /* null where it did not open */
    bool has_failed; /* a read of it failed, and why was said */
    uint8_t *part[PARTS];
    size_t length[PARTS];
};

/* A wish of the machine, as it hands it over. */
struct wish {
    size_t what, side, part, start, length;
};

static const size_t part_room[PARTS] = {FASCJOLDI_FRONT_ROOM, FASCJOLDI_BODY_ROOM};

static void open_side(struct side *side, struct source *source)
{
    side->source = source;
    side->has_failed = false;
    for (size_t i = 0; i < PARTS; i++) {
        side->part[i] = room_for(part_room[i], 1);
        side->length[i] = 0;
    }
}

static void close_side(struct side *side)
{
    for (size_t i = 0; i < PARTS; i++)
        free(side->part[i]);
}

/* Fills a buffer with a part of the file, as far as that has it. */
static void read_part(struct side *side, const struct wish *wish, struct result *result)
{
    size_t got = 0;
    if (side->source != NULL && !source_read(side->source, wish->start, side->part[wish->part], wish->length, &got)) {
        if (!side->has_failed)
            fail_read(result, side->source->name);
        side->has_failed = true;
        got = 0;
    }
    side->length[wish->part] = got;
}

static void next_wish(struct wish *wish, uint64_t *state, struct side *sides, uint8_t *output)
{
    struct side *left = &sides[FASCJOLDI_LEFT], *right = &sides[FASCJOLDI_RIGHT];
    wish->what = fascjoldi_listing_next(state, left->part[FASCJOLDI_FRONT], left->length[FASCJOLDI_FRONT],
        right->part[FASCJOLDI_FRONT], right->length[FASCJOLDI_FRONT], left->part[FASCJOLDI_BODY],
        left->length[FASCJOLDI_BODY], right->part[FASCJOLDI_BODY], right->length[FASCJOLDI_BODY], output,
        FASCJOLDI_OUTPUT_ROOM, &wish->side, &wish->part, &wish->start, &wish->length);
}

/* ---- what the last lines say */

static bool begins(const uint8_t *line, size_t length, const char *with)
{
    size_t n = strlen(with);
    return length >= n && strncmp((const char *)line, with, n) == 0;
}

/* The number that a text begins with, up to a byte that is no digit; gives how many bytes it has. */
static size_t leading_number(const uint8_t *text, size_t length, uint64_t *number)
{
    size_t n = 0, place;
    while (n < length && text[n] >= '0' && text[n] <= '9')
        n++;
    number_of(text, n, number, &place);
    return n;
}

/* A refusal is said once more on standard error, with its meaning; but where the file could not be read, that was said
 * already. */
static void explain(const uint8_t *line, size_t length, struct side *sides, struct result *result)
{
    size_t which = begins(line, length, "refused left ") ? 0 : 1;
    size_t at = strlen(which == 0 ? "refused left " : "refused right ");
    uint64_t number, place;
    at += leading_number(line + at, length - at, &number) + 1;
    leading_number(line + at, length - at, &place);
    if (sides[which].source != NULL && !sides[which].has_failed)
        refuse(result, sides[which].source->name, number, place);
    result->status = 2;
}

/* The lines of one write, of which the last ones decide the status. */
static void look_at(const uint8_t *lines, size_t length, struct side *sides, struct result *result)
{
    while (length > 0) {
        const uint8_t *newline = memchr(lines, '\n', length);
        size_t n = newline == NULL ? length : (size_t)(newline - lines) + 1;
        if (begins(lines, n, "refused "))
            explain(lines, n, sides, result);
        else if (!begins(lines, n, "differences 0\n"))
            result->status = result->status == 2 ? 2 : 1;
        lines += n;
        length -= n;
    }
}

/* ---- the run */

static void run(struct side *sides, struct result *result)
{
    uint8_t *output = room_for(FASCJOLDI_OUTPUT_ROOM, 1);
    uint64_t state[8];
    struct wish wish;
    size_t sizes[SIDES];
    for (size_t i = 0; i < SIDES; i++)
        sizes[i] = sides[i].source != NULL ? sides[i].source->size : 0;
    wish.what = fascjoldi_listing_start(sizes[0], sizes[1], state, &wish.side, &wish.part, &wish.start, &wish.length);
    for (size_t turn = fascjoldi_listing_turns(); turn > 0 && wish.what != FASCJOLDI_WISH_DONE; turn--) {
        if (wish.what == FASCJOLDI_WISH_READ) {
            if (wish.side >= SIDES || wish.part >= PARTS || wish.length > part_room[wish.part])
                stop_at_once(
                    "the list asks for more than it can; this is a fault of the program, please say how it came");
            read_part(&sides[wish.side], &wish, result);
        } else {
            size_t n = wish.length < FASCJOLDI_OUTPUT_ROOM ? wish.length : FASCJOLDI_OUTPUT_ROOM;
            output_lines(output, n);
            look_at(output, n, sides, result);
        }
        next_wish(&wish, state, sides, output);
    }
    free(output);
}

void list_changes(struct source *left, struct source *right, struct result *result)
{
    struct side sides[SIDES];
    open_side(&sides[FASCJOLDI_LEFT], left);
    open_side(&sides[FASCJOLDI_RIGHT], right);
    run(sides, result);
    for (size_t i = 0; i < SIDES; i++)
        close_side(&sides[i]);
}

/* Opens a file; one that does not open is said, and is none. */
static struct source *open_or_none(struct source *source, const char *name, struct result *result)
{
    struct result why;
    result_begin(&why);
    bool is_open = source_open(source, name, &why);
    bytes_add(&result->err, why.err.at, why.err.length);
    result_free(&why);
    return is_open ? source : NULL;
}

int do_changes(const struct task *task)
{
    struct source left, right;
    struct result result;
    result_begin(&result);
    struct source *from = open_or_none(&left, task->files[0], &result);
    struct source *to = open_or_none(&right, task->files[1], &result);
    list_changes(from, to, &result);
    if (from != NULL)
        source_close(from);
    if (to != NULL)
        source_close(to);
    int status = result.status;
    result_print(&result);
    return status;
}
