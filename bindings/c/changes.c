/*
 * Says what differs between two column files, as the program changes does: the machine of the archive says what is to be
 * read and what is to be written, and here that is done. usage: changes LEFT RIGHT
 */
#include "fascjoldi.h"
#include "out.h"

#define READ_ONLY 0
#define FROM_THE_END 2

int open(const char *name, int how, ...);
long lseek(int fd, long offset, int whence);
long pread(int fd, void *bytes, size_t count, long offset);

/* A file, and its two buffers with how many bytes each holds. */
struct file {
    int fd;
    uint8_t room[2][FASCJOLDI_BODY_ROOM];
    size_t held[2];
};

static struct file files[2];
static uint8_t output[FASCJOLDI_OUTPUT_ROOM];

/* Opens a file, and gives how many bytes it has. One that does not open, or that is no file with a size, is one of no bytes. */
static size_t size_of(struct file *file, const char *name)
{
    file->fd = open(name, READ_ONLY);
    long size = lseek(file->fd, 0, FROM_THE_END);
    return size < 0 ? 0 : (size_t)size;
}

/* Fills a buffer with a part of the file: all of it, or as much as the file has there. */
static void fill(struct file *file, size_t part, size_t start, size_t length)
{
    size_t held = 0;
    while (held < length) {
        long n = pread(file->fd, file->room[part] + held, length - held, (long)(start + held));
        if (n <= 0) {
            break;
        }
        held += (size_t)n;
    }
    file->held[part] = held;
}

/* Writes bytes of the output; 0 where that fails. */
static int write_out(size_t length)
{
    for (size_t done = 0; done < length;) {
        long n = write(1, output + done, length - done);
        if (n <= 0) {
            return 0;
        }
        done += (size_t)n;
    }
    return 1;
}

int main(int count, char **words)
{
    uint64_t state[8];
    size_t side = 0, part = 0, start = 0, length = 0;
    if (count != 3) {
        return 2;
    }
    size_t left_size = size_of(&files[FASCJOLDI_LEFT], words[1]);
    size_t right_size = size_of(&files[FASCJOLDI_RIGHT], words[2]);
    size_t wish = fascjoldi_listing_start(left_size, right_size, state, &side, &part, &start, &length);
    const struct file *left = &files[FASCJOLDI_LEFT], *right = &files[FASCJOLDI_RIGHT];
    while (wish != FASCJOLDI_WISH_DONE) {
        if (wish == FASCJOLDI_WISH_READ) {
            fill(&files[side], part, start, length);
        } else if (!write_out(length)) {
            return 1;
        }
        wish = fascjoldi_listing_next(state, left->room[FASCJOLDI_FRONT], left->held[FASCJOLDI_FRONT],
            right->room[FASCJOLDI_FRONT], right->held[FASCJOLDI_FRONT], left->room[FASCJOLDI_BODY],
            left->held[FASCJOLDI_BODY], right->room[FASCJOLDI_BODY], right->held[FASCJOLDI_BODY], output, sizeof output,
            &side, &part, &start, &length);
    }
    return 0;
}
