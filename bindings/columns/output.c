/* Standard output and standard error. */
#include "output.h"
#include "signals.h"

/* A pipe takes so many bytes of a write whole (PIPE_BUF); a plain file takes more at once. */
enum { PIPE_ROOM = 4096, FILE_ROOM = 65536 };

static struct bytes gathered;
static size_t most;
static bool shown, showing, is_terminal;
static struct timespec began, said_last;

static void fill_if_closed(int fd, int how)
{
    if (fcntl(fd, F_GETFD) < 0 && errno == EBADF)
        open("/dev/null", how);
}

void output_begin(void)
{
    /* A closed file stays one that cannot be read or written: its place is taken by one that is opened the other way
     * round. */
    fill_if_closed(0, O_WRONLY);
    fill_if_closed(1, O_RDONLY);
    fill_if_closed(2, O_RDONLY);
    struct stat is;
    most = fstat(1, &is) == 0 && (is.st_mode & S_IFMT) == S_IFREG ? FILE_ROOM : PIPE_ROOM;
    is_terminal = isatty(1);
    shown = isatty(2) && !is_terminal;
    bytes_begin(&gathered);
    clock_gettime(CLOCK_MONOTONIC, &began);
    said_last = began;
}

/* Writes all bytes; false where a write fails. */
static bool write_all(int fd, const uint8_t *bytes, size_t length)
{
    while (length > 0) {
        long done = write(fd, bytes, length);
        if (done >= 0) {
            bytes += done;
            length -= (size_t)done;
        } else if (errno == EAGAIN) {
            struct pollfd one = {fd, POLLOUT, 0};
            poll(&one, 1, -1);
        } else if (errno != EINTR) {
            return false;
        }
    }
    return true;
}

static void progress_hide(void)
{
    if (showing)
        write_all(2, (const uint8_t *)"\r\033[K", 4);
    showing = false;
}

static void output_failed(void)
{
    struct bytes text;
    const char *why = strerrordesc_np(errno);
    gathered.length = 0;
    bytes_begin(&text);
    bytes_text(&text, "standard output: ");
    bytes_text(&text, why == NULL ? "a write failed" : why);
    bytes_text(&text, "; what was written is not all");
    stop_at_once(bytes_as_text(&text));
}

/* How many bytes of the gathered ones one write is given: whole lines, as many as it may have, or all of a line that is
 * longer. */
static size_t whole_lines(const uint8_t *bytes, size_t length)
{
    if (length <= most)
        return length;
    const uint8_t *last = memrchr(bytes, '\n', most);
    if (last == NULL)
        last = memchr(bytes, '\n', length);
    return last == NULL ? length : (size_t)(last - bytes) + 1;
}

/* Writes gathered lines while there are more than `keep` bytes. */
static void write_gathered(size_t keep)
{
    size_t done = 0;
    if (gathered.length > keep)
        progress_hide();
    while (gathered.length - done > keep) {
        size_t n = whole_lines(gathered.at + done, gathered.length - done);
        if (!write_all(1, gathered.at + done, n))
            output_failed();
        done += n;
    }
    bytes_drop_front(&gathered, done);
}

void output_lines(const void *lines, size_t length)
{
    bytes_add(&gathered, lines, length);
    write_gathered(is_terminal ? 0 : most);
}

void output_flush(void)
{
    write_gathered(0);
}

void output_end(void)
{
    progress_hide();
    output_flush();
    if (close(1) != 0 && errno != EBADF)
        output_failed();
}

void complain(const struct bytes *lines)
{
    if (lines->length == 0)
        return;
    output_flush();
    progress_hide();
    write_all(2, lines->at, lines->length);
}

void complain_text(const char *text)
{
    struct bytes line;
    bytes_begin(&line);
    bytes_text(&line, "columns: ");
    bytes_text(&line, text);
    bytes_text(&line, "\n");
    complain(&line);
    bytes_free(&line);
}

/* Here nothing is asked of the heap, which may have no room. */
void stop_at_once(const char *text)
{
    progress_hide();
    struct {
        const char *part;
    } parts[] = {{"columns: "}, {text}, {"\n"}};
    char line[PIPE_ROOM];
    size_t n = 0;
    for (size_t i = 0; i < 3; i++)
        for (const char *at = parts[i].part; *at != 0 && n < sizeof(line) - 1; at++)
            line[n++] = *at;
    line[n - 1] = '\n';
    write_all(2, (const uint8_t *)line, n);
    leave(2);
}

/* ---- progress */

static long milliseconds(const struct timespec *from, const struct timespec *to)
{
    return (to->tv_sec - from->tv_sec) * 1000 + (to->tv_nsec - from->tv_nsec) / 1000000;
}

/* A second after the start, and five times a second then. */
bool progress_is_shown(void)
{
    struct timespec now;
    if (!shown)
        return false;
    clock_gettime(CLOCK_MONOTONIC, &now);
    if (milliseconds(&began, &now) < 1000 || milliseconds(&said_last, &now) < 200)
        return false;
    said_last = now;
    return true;
}

void progress_say(const char *before, uint64_t done, const char *between, uint64_t all, const char *behind)
{
    struct bytes line;
    bytes_begin(&line);
    bytes_text(&line, "\r\033[K");
    bytes_text(&line, before);
    bytes_number(&line, done);
    if (between != NULL) {
        bytes_text(&line, between);
        bytes_number(&line, all);
    }
    bytes_text(&line, behind);
    write_all(2, line.at, line.length);
    bytes_free(&line);
    showing = true;
}
