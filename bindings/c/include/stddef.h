/* The little of C's stddef.h that fascjoldi.h needs, on x86-64: the kit's compiler comes with no headers. */
#ifndef BINDINGS_STDDEF_H
#define BINDINGS_STDDEF_H
typedef __SIZE_TYPE__ size_t;
#define NULL ((void *)0)
#endif
