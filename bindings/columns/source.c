/* The files that are read. What a file is like is decided by the proved calls. */
#include "source.h"
#include "fascjoldi.h"

/* ---- reading */

static bool wait_for(int fd)
{
    struct pollfd one = {fd, POLLIN, 0};
    return poll(&one, 1, -1) >= 0 || errno == EINTR;
}

/* One read of a stream, tried again where it was interrupted or there is nothing yet; below 0 where it fails. */
static long read_stream(int fd, void *to, size_t count)
{
    for (;;) {
        long got = read(fd, to, count);
        if (got >= 0)
            return got;
        if (errno == EAGAIN) {
            if (!wait_for(fd))
                return -1;
        } else if (errno != EINTR) {
            return -1;
        }
    }
}

/* Reads a stream to its end, or to one byte more than any readable file has: such a one is refused for its length in
 * either case. */
static bool hold_stream(struct source *source, struct result *result)
{
    enum { STEP = 65536 };
    struct bytes *bytes = &source->bytes;
    while (bytes->length <= LONGEST_FILE) {
        size_t most = LONGEST_FILE + 1 - bytes->length;
        bytes_reserve(bytes, STEP);
        long got = read_stream(source->fd, bytes->at + bytes->length, most < STEP ? most : STEP);
        if (got < 0) {
            fail_read(result, source->name);
            return false;
        }
        if (got == 0)
            break;
        bytes->length += (size_t)got;
    }
    source->size = bytes->length;
    return true;
}

void fail_read(struct result *result, const char *name)
{
    fail_system(result, name, "a read failed: ", "; nothing is said of the file");
}

void fail_changed(struct result *result, const char *name)
{
    fail(result, name, "the file was changed while it was read; try again", NULL);
}

bool source_read(struct source *source, size_t at, void *to, size_t count, size_t *got)
{
    *got = 0;
    if (source->is_held) {
        if (at < source->size)
            *got = count < source->size - at ? count : source->size - at;
        memcpy(to, source->bytes.at + (at < source->size ? at : 0), *got);
        return true;
    }
    while (*got < count) {
        long more = pread(source->fd, (uint8_t *)to + *got, count - *got, (long)(at + *got));
        if (more < 0 && errno == EINTR)
            continue;
        if (more < 0)
            return false;
        if (more == 0)
            break;
        *got += (size_t)more;
    }
    return true;
}

bool source_is_same(struct source *source)
{
    struct stat now;
    if (source->is_held)
        return true;
    return fstat(source->fd, &now) == 0 && now.st_size == source->first.st_size &&
           now.st_mtim.tv_sec == source->first.st_mtim.tv_sec && now.st_mtim.tv_nsec == source->first.st_mtim.tv_nsec;
}

/* ---- opening */

static bool is_of(const struct source *source, uint32_t kind)
{
    return (source->first.st_mode & S_IFMT) == kind;
}

/* A file that is open: a folder is refused, a plain file is read at positions, and all else is read whole. */
static bool take_up(struct source *source, bool is_input, struct result *result)
{
    if (fstat(source->fd, &source->first) != 0) {
        fail_system(result, source->name, "", NULL);
        return false;
    }
    if (is_of(source, S_IFDIR)) {
        fail(result, source->name, "is a folder, and has to be a file", NULL);
        return false;
    }
    if (!is_input && is_of(source, S_IFREG) && source->first.st_size > 0) {
        source->size = (size_t)source->first.st_size;
        return true;
    }
    source->is_held = true;
    if (!hold_stream(source, result))
        return false;
    if (source->size == 0 && is_of(source, S_IFIFO) && !is_input) {
        fail(result, source->name, "is a pipe that nobody writes to, or that gave no bytes", NULL);
        return false;
    }
    return true;
}

bool source_open(struct source *source, const char *name, struct result *result)
{
    bool is_input = strcmp(name, "-") == 0;
    source->name = name;
    source->is_held = false;
    source->size = 0;
    bytes_begin(&source->bytes);
    /* A pipe is opened without waiting for one who writes to it. */
    source->fd = is_input ? 0 : open(name, O_RDONLY | O_CLOEXEC | O_NONBLOCK | O_NOCTTY);
    if (source->fd < 0) {
        fail_system(result, name, "", NULL);
        bytes_free(&source->bytes);
        return false;
    }
    if (take_up(source, is_input, result))
        return true;
    source_close(source);
    return false;
}

void source_close(struct source *source)
{
    if (source->fd > 0)
        close(source->fd);
    source->fd = -1;
    bytes_free(&source->bytes);
}

/* ---- whole */

/* A file that is too long for any contents: these say why it is refused. */
static void refuse_long(struct source *source, struct result *result)
{
    struct front front;
    if (front_read(&front, source, result)) {
        refuse(result, source->name, FASCJOLDI_OVER, 0);
        front_free(&front);
    }
}

bool source_whole(struct source *source, struct result *result)
{
    size_t got;
    if (source->is_held)
        return true;
    if (source->size > LONGEST_FILE) {
        refuse_long(source, result);
        return false;
    }
    bytes_reserve(&source->bytes, source->size);
    if (!source_read(source, 0, source->bytes.at, source->size, &got)) {
        fail_read(result, source->name);
        return false;
    }
    source->bytes.length = got;
    if (got < source->size || !source_is_same(source)) {
        fail_changed(result, source->name);
        return false;
    }
    source->is_held = true;
    return true;
}

/* ---- the front */

/* Reads the front: first the four bytes that say how long it is, and then all of it. False where a read fails or gives
 * fewer bytes than the file has. */
static bool read_front(struct front *front, struct source *source, struct result *result)
{
    size_t head, wanted;
    if (!source_read(source, 0, front->at, 4, &head)) {
        fail_read(result, source->name);
        return false;
    }
    wanted = fascjoldi_front_length(front->at, head);
    if (wanted > LONGEST_FRONT)
        wanted = LONGEST_FRONT;
    if (!source_read(source, 0, front->at, wanted, &front->length)) {
        fail_read(result, source->name);
        return false;
    }
    if (front->length < wanted && front->length < source->size) {
        fail_changed(result, source->name);
        return false;
    }
    return true;
}

bool front_read(struct front *front, struct source *source, struct result *result)
{
    size_t number, place;
    front->at = room_for(LONGEST_FRONT, 1);
    if (!read_front(front, source, result)) {
        front_free(front);
        return false;
    }
    number = fascjoldi_front_check(front->at, front->length, source->size, &place);
    if (number != FASCJOLDI_DONE) {
        refuse(result, source->name, number, place);
        front_free(front);
        return false;
    }
    front->blocks = fascjoldi_front_count(front->at, front->length);
    front->rows = fascjoldi_front_row_count(front->at, front->length);
    return true;
}

void front_free(struct front *front)
{
    free(front->at);
    front->at = NULL;
}

/* ---- the bodies */

void cursor_first(struct cursor *cursor, const struct front *front)
{
    fascjoldi_body_first(front->at, front->length, &cursor->number, &cursor->start, &cursor->length);
}

void cursor_next(struct cursor *cursor, const struct front *front)
{
    fascjoldi_body_next(front->at, front->length, &cursor->number, &cursor->start, &cursor->length);
}

/* The body's numbers against the contents; of a file that is as long as these say, 8 is a body that is not there any
 * more. */
static bool lay_down(uint64_t *block, const struct cursor *cursor, const struct front *front, const uint8_t *body,
    size_t length, const char *name, struct result *result)
{
    size_t place;
    size_t number =
        fascjoldi_body_block_out(front->at, front->length, cursor->number, body, length, block, BLOCK, &place);
    if (number == FASCJOLDI_CUT) {
        fail_changed(result, name);
        return false;
    }
    if (number == FASCJOLDI_DONE)
        number = fascjoldi_body_check_range(front->at, front->length, cursor->number, block, BLOCK, &place);
    if (number != FASCJOLDI_DONE) {
        refuse(result, name, number, place);
        return false;
    }
    return true;
}

bool block_read(uint64_t *block, const struct cursor *cursor, const struct front *front, struct source *source,
    struct result *result)
{
    size_t wanted = cursor->length < LONGEST_BODY ? cursor->length : LONGEST_BODY, got;
    uint8_t *body = room_for(LONGEST_BODY, 1);
    bool good = source_read(source, cursor->start, body, wanted, &got);
    if (!good)
        fail_read(result, source->name);
    else
        good = lay_down(block, cursor, front, body, got, source->name, result);
    free(body);
    return good;
}
