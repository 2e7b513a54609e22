/* The files of a table. */
#include "files.h"
#include "fascjoldi.h"
#include "sentences.h"
#include "sqlite3ext.h"
#include <errno.h>
#include <fcntl.h>
#include <string.h>
#include <unistd.h>

SQLITE_EXTENSION_INIT3

void *room_for(size_t count, size_t each)
{
    size_t size;
    if (__builtin_mul_overflow(count == 0 ? 1 : count, each == 0 ? 1 : each, &size))
        return NULL;
    void *room = sqlite3_malloc64(size);
    if (room != NULL)
        memset(room, 0, size);
    return room;
}

/* ---- what is said where something is wrong */

/* The number, the place and the sentence, as the program columns has them. */
static char *refused(const char *name, size_t number, size_t place)
{
    for (size_t i = 0; i < sizeof(sentences) / sizeof(sentences[0]); i++) {
        const struct sentence *one = &sentences[i];
        if (one->number == number && one->behind == NULL)
            return sqlite3_mprintf("%s: refused %llu %llu: %s", name, (sqlite3_uint64)number, (sqlite3_uint64)place,
                one->before);
        if (one->number == number)
            return sqlite3_mprintf("%s: refused %llu %llu: %s%llu%s", name, (sqlite3_uint64)number,
                (sqlite3_uint64)place, one->before, (sqlite3_uint64)place, one->behind);
    }
    return sqlite3_mprintf("%s: refused %llu %llu: the call cannot be made so; this is a fault of the extension", name,
        (sqlite3_uint64)number, (sqlite3_uint64)place);
}

static char *failed(const char *name, const char *what)
{
    return sqlite3_mprintf("%s: %s%s", name, what, strerror(errno));
}

static char *changed(const char *name)
{
    return sqlite3_mprintf("%s: the file was changed or replaced while it was read; ask again", name);
}

/* ---- reading */

static struct identity identity_of(const struct stat *found)
{
    return (struct identity){found->st_dev, found->st_ino, found->st_size, found->st_mtim};
}

static bool is_same(const struct identity *left, const struct identity *right)
{
    return left->device == right->device && left->number == right->number && left->size == right->size &&
           left->written.tv_sec == right->written.tv_sec && left->written.tv_nsec == right->written.tv_nsec;
}

/* Whether an open file still is what it was. */
static bool is_still(int fd, const struct identity *identity)
{
    struct stat found;
    if (fstat(fd, &found) != 0)
        return false;
    struct identity now = identity_of(&found);
    return is_same(&now, identity);
}

/* Opens a plain file. A pipe is opened without waiting for one who writes to it, and is then refused. */
static int open_plain(const char *name, struct identity *identity, char **why)
{
    struct stat found;
    int fd = open(name, O_RDONLY | O_CLOEXEC | O_NONBLOCK | O_NOCTTY);
    if (fd < 0 || fstat(fd, &found) != 0) {
        *why = failed(name, "");
    } else if (!S_ISREG(found.st_mode)) {
        *why = sqlite3_mprintf("%s: is no plain file", name);
    } else {
        *identity = identity_of(&found);
        return fd;
    }
    if (fd >= 0)
        close(fd);
    return -1;
}

/* Reads bytes from a position on, as many as the file has of them. False where a read fails. */
static bool read_at(int fd, size_t at, uint8_t *to, size_t count, size_t *got)
{
    *got = 0;
    while (*got < count) {
        ssize_t more = pread(fd, to + *got, count - *got, (off_t)(at + *got));
        if (more < 0 && errno == EINTR)
            continue;
        if (more < 0)
            return false;
        if (more == 0)
            break;
        *got += (size_t)more;
    }
    return true;
}

/* ---- the contents */

static void part_free(struct part *part)
{
    sqlite3_free(part->front);
    sqlite3_free(part->starts);
    sqlite3_free(part->lengths);
}

/* Reads the front: first the four bytes that say how long it is, and then all of it. */
static bool read_front(struct part *part, int fd, const char *name, char **why)
{
    size_t head, wanted;
    if (!read_at(fd, 0, part->front, 4, &head)) {
        *why = failed(name, "a read failed: ");
        return false;
    }
    wanted = fascjoldi_front_length(part->front, head);
    if (wanted > LONGEST_FRONT)
        wanted = LONGEST_FRONT;
    if (!read_at(fd, 0, part->front, wanted, &part->front_length)) {
        *why = failed(name, "a read failed: ");
        return false;
    }
    if (!is_still(fd, &part->identity)) {
        *why = changed(name);
        return false;
    }
    return true;
}

/* Where the bodies are, by the contents. */
static bool find_bodies(struct part *part)
{
    size_t number, start;
    uint32_t length;
    part->starts = room_for(part->blocks, sizeof(size_t));
    part->lengths = room_for(part->blocks, sizeof(uint32_t));
    if (part->starts == NULL || part->lengths == NULL)
        return false;
    fascjoldi_body_first(part->front, part->front_length, &number, &start, &length);
    while (number < part->blocks) {
        part->starts[number] = start;
        part->lengths[number] = length;
        fascjoldi_body_next(part->front, part->front_length, &number, &start, &length);
    }
    return true;
}

static bool take_contents(struct part *part, int fd, const char *name, char **why)
{
    size_t place;
    part->front = room_for(LONGEST_FRONT, 1);
    if (part->front == NULL || !read_front(part, fd, name, why))
        return false;
    size_t number = fascjoldi_front_check(part->front, part->front_length, (size_t)part->identity.size, &place);
    if (number != FASCJOLDI_DONE) {
        *why = refused(name, number, place);
        return false;
    }
    part->blocks = fascjoldi_front_count(part->front, part->front_length);
    part->rows = fascjoldi_front_row_count(part->front, part->front_length);
    part->edition = fascjoldi_front_edition(part->front, part->front_length);
    return find_bodies(part);
}

static bool part_read(struct part *part, const char *name, char **why)
{
    int fd = open_plain(name, &part->identity, why);
    if (fd < 0)
        return false;
    bool good = take_contents(part, fd, name, why);
    close(fd);
    return good;
}

/* ---- all files */

void version_drop(struct version *version)
{
    if (version == NULL || --version->users > 0)
        return;
    for (size_t i = 0; version->parts != NULL && i < version->count; i++)
        part_free(&version->parts[i]);
    sqlite3_free(version->parts);
    sqlite3_free(version->before);
    sqlite3_free(version);
}

static bool version_is_now(const struct version *version)
{
    for (size_t i = 0; i < version->count; i++) {
        struct stat found;
        if (stat(version->names[i], &found) != 0)
            return false;
        struct identity now = identity_of(&found);
        if (!is_same(&now, &version->parts[i].identity))
            return false;
    }
    return true;
}

static bool version_read(struct version *version, char **why)
{
    version->parts = room_for(version->count, sizeof(struct part));
    version->before = room_for(version->count + 1, sizeof(uint64_t));
    if (version->parts == NULL || version->before == NULL)
        return false;
    for (size_t i = 0; i < version->count; i++) {
        if (!part_read(&version->parts[i], version->names[i], why))
            return false;
        version->before[i + 1] = version->before[i] + version->parts[i].rows;
    }
    return true;
}

struct version *version_now(struct version *kept, char *const *names, size_t count, char **why)
{
    *why = NULL;
    if (kept != NULL && version_is_now(kept)) {
        kept->users++;
        return kept;
    }
    struct version *version = room_for(1, sizeof(struct version));
    if (version == NULL)
        return NULL;
    version->users = 1;
    version->names = names;
    version->count = count;
    if (version_read(version, why))
        return version;
    version_drop(version);
    return NULL;
}

size_t version_part_of(const struct version *version, uint64_t row)
{
    size_t low = 0, high = version->count;
    while (high - low > 1) {
        size_t middle = low + (high - low) / 2;
        if (version->before[middle] <= row)
            low = middle;
        else
            high = middle;
    }
    return low;
}

/* ---- blocks */

void reader_close(struct reader *reader)
{
    if (reader->fd >= 0)
        close(reader->fd);
    reader->fd = -1;
}

/* Whether it is the file whose contents were read is looked at when a block was read from it. */
static bool reader_open(struct reader *reader, const struct version *version, size_t part, char **why)
{
    struct identity now;
    if (reader->fd >= 0 && reader->part == part)
        return true;
    reader_close(reader);
    reader->fd = open_plain(version->names[part], &now, why);
    reader->part = part;
    return reader->fd >= 0;
}

/* The body's numbers against the contents, which have to be those of the file that was read from; of such a file 8 is a
 * body that is not there any more. */
static bool lay_down(const struct reader *reader, const struct part *part, size_t block, size_t got, const char *name,
    uint64_t *numbers, char **why)
{
    size_t place;
    size_t number =
        fascjoldi_body_block_out(part->front, part->front_length, block, reader->body, got, numbers, BLOCK, &place);
    if (number == FASCJOLDI_DONE)
        number = fascjoldi_body_check_range(part->front, part->front_length, block, numbers, BLOCK, &place);
    if (number == FASCJOLDI_CUT || !is_still(reader->fd, &part->identity))
        *why = changed(name);
    else if (number != FASCJOLDI_DONE)
        *why = refused(name, number, place);
    else
        return true;
    return false;
}

bool reader_block(struct reader *reader, const struct version *version, size_t which, size_t block, uint64_t *numbers,
    char **why)
{
    const struct part *part = &version->parts[which];
    size_t wanted = part->lengths[block] < LONGEST_BODY ? part->lengths[block] : LONGEST_BODY, got;
    *why = NULL;
    if (!reader_open(reader, version, which, why))
        return false;
    if (!read_at(reader->fd, part->starts[block], reader->body, wanted, &got)) {
        *why = failed(version->names[which], "a read failed: ");
        return false;
    }
    return lay_down(reader, part, block, got, version->names[which], numbers, why);
}
