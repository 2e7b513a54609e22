/* Room on the heap: every buffer of the program is one of these. A call that finds no room ends the program with
 * status 2. */
#ifndef COLUMNS_ROOM_H
#define COLUMNS_ROOM_H

#include "system.h"

/* Room for so many things of one size, all zero. It is never null, also for none. */
void *room_for(size_t count, size_t each);

/* The same room with space for so many things. */
void *room_again(void *old, size_t count, size_t each);

/* Bytes that grow as they are added to. */
struct bytes {
    uint8_t *at;
    size_t length;
    size_t size;
};

void bytes_begin(struct bytes *bytes);
void bytes_free(struct bytes *bytes);
void bytes_reserve(struct bytes *bytes, size_t more);
void bytes_add(struct bytes *bytes, const void *from, size_t count);
void bytes_byte(struct bytes *bytes, char byte);
void bytes_text(struct bytes *bytes, const char *text);
void bytes_times(struct bytes *bytes, char byte, size_t count);
void bytes_drop_front(struct bytes *bytes, size_t count);

/* A number in decimal, by the proved call; and with spaces before it up to a width. */
void bytes_number(struct bytes *bytes, uint64_t number);
void bytes_wide(struct bytes *bytes, uint64_t number, size_t width);

/* The name of a file as the user said it. One with bytes that move a terminal's cursor stands as a shell reads it, in
 * $'..', so that it cannot be taken for lines of ours. */
void bytes_name(struct bytes *bytes, const char *name);

/* The bytes with a 0 behind them, as a text. */
const char *bytes_as_text(struct bytes *bytes);

/* Numbers that grow. */
struct numbers {
    uint64_t *at;
    size_t length;
    size_t size;
};

void numbers_begin(struct numbers *numbers);
void numbers_free(struct numbers *numbers);
void numbers_add(struct numbers *numbers, uint64_t number);

/* What a text is read as, by the proved call: a number, or why it is none. `place` is that of the first byte that is no
 * digit. */
enum read_as { READ_NUMBER, READ_EMPTY, READ_OTHER, READ_LARGE };
enum read_as number_of(const void *text, size_t length, uint64_t *number, size_t *place);

#endif
