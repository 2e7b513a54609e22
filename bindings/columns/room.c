/* Room on the heap, and texts and numbers that are laid into it. */
#include "room.h"
#include "fascjoldi.h"
#include "output.h"

static void no_room(void)
{
    stop_at_once("there is not enough memory; give the program more, or fewer and smaller files, or a smaller -j");
}

void *room_for(size_t count, size_t each)
{
    void *room = calloc(count == 0 ? 1 : count, each == 0 ? 1 : each);
    if (room == NULL)
        no_room();
    return room;
}

void *room_again(void *old, size_t count, size_t each)
{
    size_t size;
    if (__builtin_mul_overflow(count == 0 ? 1 : count, each == 0 ? 1 : each, &size))
        no_room();
    void *room = realloc(old, size);
    if (room == NULL)
        no_room();
    return room;
}

/* A size that has room for so much and is at least twice the one before, so that growing step by step costs little. */
static size_t grown(size_t size, size_t length, size_t more)
{
    size_t needed;
    if (__builtin_add_overflow(length, more, &needed))
        no_room();
    if (needed <= size)
        return size;
    size_t twice = size < 64 ? 64 : size > SIZE_MAX / 2 ? SIZE_MAX : 2 * size;
    return needed < twice ? twice : needed;
}

/* ---- bytes */

void bytes_begin(struct bytes *bytes)
{
    bytes->at = room_for(1, 1);
    bytes->length = 0;
    bytes->size = 1;
}

void bytes_free(struct bytes *bytes)
{
    free(bytes->at);
    bytes->at = NULL;
    bytes->length = bytes->size = 0;
}

void bytes_reserve(struct bytes *bytes, size_t more)
{
    size_t size = grown(bytes->size, bytes->length, more);
    if (size != bytes->size) {
        bytes->at = room_again(bytes->at, size, 1);
        bytes->size = size;
    }
}

void bytes_add(struct bytes *bytes, const void *from, size_t count)
{
    bytes_reserve(bytes, count);
    memcpy(bytes->at + bytes->length, from, count);
    bytes->length += count;
}

void bytes_byte(struct bytes *bytes, char byte)
{
    if (bytes->length == bytes->size)
        bytes_reserve(bytes, 1);
    bytes->at[bytes->length++] = (uint8_t)byte;
}

void bytes_text(struct bytes *bytes, const char *text)
{
    bytes_add(bytes, text, strlen(text));
}

void bytes_times(struct bytes *bytes, char byte, size_t count)
{
    for (; count > 0; count--)
        bytes_byte(bytes, byte);
}

void bytes_drop_front(struct bytes *bytes, size_t count)
{
    if (count > bytes->length)
        count = bytes->length;
    memmove(bytes->at, bytes->at + count, bytes->length - count);
    bytes->length -= count;
}

const char *bytes_as_text(struct bytes *bytes)
{
    bytes_reserve(bytes, 1);
    bytes->at[bytes->length] = 0;
    return (const char *)bytes->at;
}

/* ---- numbers as texts */

enum { DIGITS = 20 };

void bytes_number(struct bytes *bytes, uint64_t number)
{
    bytes_reserve(bytes, DIGITS);
    bytes->length += fascjoldi_decimal_lay(number, bytes->at + bytes->length, bytes->size - bytes->length);
}

void bytes_wide(struct bytes *bytes, uint64_t number, size_t width)
{
    size_t before = bytes->length;
    bytes_number(bytes, number);
    size_t digits = bytes->length - before;
    if (digits >= width)
        return;
    bytes_times(bytes, ' ', width - digits);
    memmove(bytes->at + before + (width - digits), bytes->at + before, digits);
    for (size_t i = 0; i < width - digits; i++)
        bytes->at[before + i] = ' ';
}

enum read_as number_of(const void *text, size_t length, uint64_t *number, size_t *place)
{
    switch (fascjoldi_decimal_parse(text, length, number, place)) {
    case 0: return READ_NUMBER;
    case 1: return READ_EMPTY;
    case 2: return READ_OTHER;
    default: return READ_LARGE;
    }
}

/* ---- names */

static bool is_odd(uint8_t byte)
{
    return byte < 32 || byte == 127;
}

static void add_as_shell_reads(struct bytes *bytes, uint8_t byte)
{
    if (byte == '\n') {
        bytes_text(bytes, "\\n");
    } else if (byte == '\t') {
        bytes_text(bytes, "\\t");
    } else if (byte == '\r') {
        bytes_text(bytes, "\\r");
    } else if (byte == '\\' || byte == '\'') {
        char two[] = {'\\', (char)byte};
        bytes_add(bytes, two, 2);
    } else if (is_odd(byte)) {
        char octal[] = {'\\', (char)('0' + byte / 64), (char)('0' + byte / 8 % 8), (char)('0' + byte % 8)};
        bytes_add(bytes, octal, 4);
    } else {
        bytes_add(bytes, &byte, 1);
    }
}

void bytes_name(struct bytes *bytes, const char *name)
{
    size_t length = strlen(name);
    bool odd = false;
    for (size_t i = 0; i < length; i++)
        odd = odd || is_odd((uint8_t)name[i]);
    if (length == 0) {
        bytes_text(bytes, "''");
    } else if (strcmp(name, "-") == 0) {
        bytes_text(bytes, "standard input");
    } else if (!odd) {
        bytes_add(bytes, name, length);
    } else {
        bytes_text(bytes, "$'");
        for (size_t i = 0; i < length; i++)
            add_as_shell_reads(bytes, (uint8_t)name[i]);
        bytes_text(bytes, "'");
    }
}

/* ---- numbers */

void numbers_begin(struct numbers *numbers)
{
    numbers->at = room_for(1, sizeof(uint64_t));
    numbers->length = 0;
    numbers->size = 1;
}

void numbers_free(struct numbers *numbers)
{
    free(numbers->at);
    numbers->at = NULL;
    numbers->length = numbers->size = 0;
}

void numbers_add(struct numbers *numbers, uint64_t number)
{
    size_t size = grown(numbers->size, numbers->length, 1);
    if (size != numbers->size) {
        numbers->at = room_again(numbers->at, size, sizeof(uint64_t));
        numbers->size = size;
    }
    numbers->at[numbers->length++] = number;
}
