/* The little of C's stdio.h that example.c needs: the kit's compiler comes with no headers. */
#ifndef BINDINGS_STDIO_H
#define BINDINGS_STDIO_H
int printf(const char *format, ...);
#endif
