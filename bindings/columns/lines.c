/* Standard input, line by line. */
#include "lines.h"
#include "output.h"

enum { CHUNK = 65536 };

void lines_begin(struct lines *lines, size_t most, const char *each, const char *read, struct result *result)
{
    *lines = (struct lines){.most = most, .each = each, .read = read, .result = result};
    bytes_begin(&lines->line);
}

void lines_end(struct lines *lines)
{
    bytes_free(&lines->line);
}

struct bytes *lines_wrong_at(struct lines *lines, uint64_t number)
{
    struct bytes *err = &lines->result->err;
    lines->result->status = 2;
    bytes_text(err, "columns: standard input, line ");
    bytes_number(err, number);
    bytes_text(err, ": ");
    return err;
}

struct bytes *lines_wrong(struct lines *lines)
{
    return lines_wrong_at(lines, lines->count + 1);
}

bool lines_refuse(struct lines *lines, const char *sentence)
{
    struct bytes *err = lines_wrong(lines);
    bytes_text(err, sentence);
    bytes_text(err, "\n");
    return false;
}

/* The same with what a line has behind the sentence. */
static bool refuse_shape(struct lines *lines, const char *sentence)
{
    struct bytes *err = lines_wrong(lines);
    bytes_text(err, sentence);
    bytes_text(err, lines->each);
    bytes_text(err, "\n");
    return false;
}

static bool refuse_byte(struct lines *lines, size_t place)
{
    if (place + 1 == lines->line.length && lines->line.at[place] == '\r')
        return lines_refuse(lines,
            "the line ends with a carriage return, as lines from Windows do (CRLF); `tr -d '\\r'` takes them out");
    struct bytes *err = lines_wrong(lines);
    bytes_text(err, "no number: byte ");
    bytes_number(err, place + 1);
    bytes_text(err, " is no digit; ");
    bytes_text(err, lines->each);
    bytes_text(err, " without a sign\n");
    return false;
}

bool lines_number(struct lines *lines, size_t from, size_t length, uint64_t *number)
{
    size_t place;
    switch (number_of(lines->line.at + from, length, number, &place)) {
    case READ_EMPTY: return refuse_shape(lines, "no number stands there; ");
    case READ_LARGE: return lines_refuse(lines, "the number is too large; the largest is 18446744073709551615");
    case READ_OTHER: return refuse_byte(lines, from + place);
    case READ_NUMBER: break;
    }
    return true;
}

static bool refuse_long(struct lines *lines)
{
    struct bytes *err = lines_wrong(lines);
    bytes_text(err, "no number: the line has more than ");
    bytes_number(err, lines->most);
    bytes_text(err, " bytes; ");
    bytes_text(err, lines->each);
    bytes_text(err, "\n");
    return false;
}

/* Takes bytes more. */
static bool take_bytes(struct lines *lines, const uint8_t *bytes, size_t length, on_line *take, on_line *before, void *with)
{
    while (length > 0) {
        const uint8_t *newline = memchr(bytes, '\n', length);
        size_t part = newline == NULL ? length : (size_t)(newline - bytes);
        if (before != NULL && !before(lines, with))
            return false;
        if (part > lines->most - lines->line.length)
            return refuse_long(lines);
        bytes_add(&lines->line, bytes, part);
        if (newline == NULL)
            return true;
        if (!take(lines, with))
            return false;
        lines->line.length = 0;
        lines->count++;
        bytes += part + 1;
        length -= part + 1;
    }
    return true;
}

bool lines_all(struct lines *lines, on_line *take, on_line *before, void *with)
{
    uint8_t *chunk = room_for(CHUNK, 1);
    bool good = true;
    while (good) {
        long got = read(0, chunk, CHUNK);
        if (got < 0 && errno == EINTR)
            continue;
        if (got < 0 && errno == EAGAIN) {
            struct pollfd one = {0, POLLIN, 0};
            poll(&one, 1, -1);
            continue;
        }
        if (got <= 0) {
            if (got < 0)
                fail_system(lines->result, "-", "a read failed: ", "; nothing is written");
            good = got == 0;
            break;
        }
        good = take_bytes(lines, chunk, (size_t)got, take, before, with);
        if (progress_is_shown())
            progress_say("columns: ", lines->count, NULL, 0, lines->read);
    }
    free(chunk);
    if (good && lines->line.length > 0)
        return lines_refuse(lines, "the line does not end, so the number may be cut short; end it with a newline");
    return good;
}
