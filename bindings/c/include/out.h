/* What the C programs here print with: the kit has no stdio.h, so write(2) is declared and numbers are made by hand. */
#ifndef BINDINGS_OUT_H
#define BINDINGS_OUT_H
#include <stddef.h>
#include <stdint.h>

long read(int fd, void *bytes, size_t count);
long write(int fd, const void *bytes, size_t count);
void *memcpy(void *to, const void *from, size_t count);
void *memset(void *to, int byte, size_t count);
int memcmp(const void *left, const void *right, size_t count);

static inline void put_text(const char *text)
{
    size_t n = 0;
    while (text[n] != 0) {
        n++;
    }
    if (write(1, text, n) != (long)n) {
        __builtin_trap();
    }
}

static inline void put_number(uint64_t x)
{
    char digits[21];
    size_t i = 20;
    digits[i] = 0;
    do {
        i--;
        digits[i] = (char)('0' + x % 10);
        x /= 10;
    } while (x != 0);
    put_text(digits + i);
}

static inline void put_line(const char *words, uint64_t x)
{
    put_text(words);
    put_number(x);
    put_text("\n");
}

#endif
