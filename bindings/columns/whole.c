/* A file that is held whole, and checked; and several that are counted as one. */
#include "whole.h"
#include "fascjoldi.h"

static bool check_whole(struct whole *whole, struct result *result)
{
    struct source *source = &whole->source;
    size_t place;
    if (!source_whole(source, result))
        return false;
    size_t number = fascjoldi_file_check(source->bytes.at, source->bytes.length, &place);
    if (number != FASCJOLDI_DONE) {
        refuse(result, source->name, number, place);
        return false;
    }
    return front_read(&whole->front, source, result);
}

bool whole_open(struct whole *whole, const char *name, struct result *result)
{
    if (!source_open(&whole->source, name, result))
        return false;
    if (check_whole(whole, result))
        return true;
    source_close(&whole->source);
    return false;
}

void whole_close(struct whole *whole)
{
    front_free(&whole->front);
    source_close(&whole->source);
}

void whole_counts(struct bytes *to, const struct whole *whole)
{
    bytes_number(to, whole->front.blocks);
    bytes_text(to, " blocks, ");
    bytes_number(to, whole->front.rows);
    bytes_text(to, " rows, edition ");
    bytes_number(to, fascjoldi_front_edition(whole->front.at, whole->front.length));
}

/* ---- several as one */

/* How many rows a file has, by its contents alone. */
static bool count_rows(const char *name, uint64_t *rows, struct result *result)
{
    struct source source;
    struct front front;
    bool good = false;
    if (!source_open(&source, name, result))
        return false;
    if (source.is_held && source.size > 0) {
        fail(result, name, "is no plain file, and is read once; with --as-one all have to be plain files", NULL);
    } else if (front_read(&front, &source, result)) {
        *rows = front.rows;
        good = true;
        front_free(&front);
    }
    source_close(&source);
    return good;
}

uint64_t *rows_before(char **files, size_t count, struct result *result)
{
    uint64_t *before = room_for(count + 1, sizeof(uint64_t));
    for (size_t i = 0; i < count; i++) {
        uint64_t rows;
        if (!count_rows(files[i], &rows, result)) {
            free(before);
            return NULL;
        }
        before[i + 1] = before[i] + rows;
    }
    return before;
}
