/* The files that are read: plain ones at positions, and all else (standard input, a pipe, a device) whole, as far as a
 * column file can be long. */
#ifndef COLUMNS_SOURCE_H
#define COLUMNS_SOURCE_H

#include "result.h"

/* The longest file that is readable: edition 1, 256 run blocks of 1,024 values. */
enum { LONGEST_FILE = 2625540 };
/* The longest file that our writer gives, and the most rows of a file. */
enum { LONGEST_WRITTEN = 2105348, MOST_ROWS = 262144, BLOCK = 1024 };
/* The longest front of a file, and the longest body. */
enum { LONGEST_FRONT = 8196, LONGEST_BODY = 10240 };

/* An open file. Where it is held, its bytes stand in `bytes`. */
struct source {
    const char *name;
    int fd;
    bool is_held;
    struct bytes bytes;
    size_t size;
    struct stat first;
};

/* Opens a file to be read; where that cannot be done the result has a complaint, and the answer is false. */
bool source_open(struct source *source, const char *name, struct result *result);
void source_close(struct source *source);

/* Reads bytes from a position on, as many as the file has of them. False where a read fails. */
bool source_read(struct source *source, size_t at, void *to, size_t count, size_t *got);

/* The two complaints of reading: a read that fails, and a file that is another than it was. */
void fail_read(struct result *result, const char *name);
void fail_changed(struct result *result, const char *name);

/* The file whole, in bytes of its own, which are checked by no one yet. A file that is longer than any that is readable
 * is not read: it is refused by its contents. False where there is a complaint. */
bool source_whole(struct source *source, struct result *result);

/* Whether the file still is as it was when it was opened: as long, and written last at the same time. */
bool source_is_same(struct source *source);

/* The front of a file, and where its bodies are. */
struct front {
    uint8_t *at;
    size_t length;
    size_t blocks;
    uint64_t rows;
};

/* Reads and checks the front. False where there is a complaint. */
bool front_read(struct front *front, struct source *source, struct result *result);
void front_free(struct front *front);

/* The body at which a walk through the blocks is. */
struct cursor {
    size_t number;
    size_t start;
    uint32_t length;
};

void cursor_first(struct cursor *cursor, const struct front *front);
void cursor_next(struct cursor *cursor, const struct front *front);

/* Reads the body at the cursor, and lays down its 1,024 numbers, which are checked against the contents. False where
 * there is a complaint. */
bool block_read(uint64_t *block, const struct cursor *cursor, const struct front *front, struct source *source,
    struct result *result);

#endif
