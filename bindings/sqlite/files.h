/* The files that a table is over: what their contents say, and the reading of one block. What a file is like is decided
 * by the proved calls. */
#ifndef COLUMN_FILE_FILES_H
#define COLUMN_FILE_FILES_H

#include <stdbool.h>
#include <stddef.h>
#include <stdint.h>
#include <sys/stat.h>

enum { BLOCK = 1024, LONGEST_FRONT = 8196, LONGEST_BODY = 10240 };

/* Room on the heap for so many elements, all 0 and never of no bytes; null where there is none. It is given back with
 * sqlite3_free. */
void *room_for(size_t count, size_t each);

/* Which file a name stands for, and in which state. */
struct identity {
    dev_t device;
    ino_t number;
    off_t size;
    struct timespec written;
};

/* One file: its contents, which are checked, and where its bodies are. */
struct part {
    struct identity identity;
    uint8_t *front;
    size_t front_length;
    size_t blocks;
    uint64_t rows;
    size_t edition;
    size_t *starts;
    uint32_t *lengths;
};

/* All files of a table as they were at one time. A query keeps the version that it began with, so it is counted who has
 * one. `before` has how many rows stand before each file, and at its end how many there are in all. */
struct version {
    size_t users;
    size_t count;
    char *const *names;
    struct part *parts;
    uint64_t *before;
};

/* The files as they are now: the version that is given where it still is what is there, and else a new one. Null where
 * a file cannot be read or is refused; *why is then a text to be given back with sqlite3_free, or null where there is
 * no room. */
struct version *version_now(struct version *kept, char *const *names, size_t count, char **why);
void version_drop(struct version *version);

/* In which file a row stands, of those that there are. */
size_t version_part_of(const struct version *version, uint64_t row);

/* A file that is open, so that blocks can be read from it; nothing is open where fd is below 0. */
struct reader {
    int fd;
    size_t part;
    uint8_t *body;
};

/* Reads a block of a file, and lays down its 1,024 numbers, which are checked against the contents. False where that
 * fails, with *why as above. */
bool reader_block(struct reader *reader, const struct version *version, size_t part, size_t block, uint64_t *numbers,
    char **why);
void reader_close(struct reader *reader);

#endif
