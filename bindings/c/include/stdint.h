/* The little of C's stdint.h that fascjoldi.h needs, by the compiler's own names: the kit's compiler comes with no headers. */
#ifndef BINDINGS_STDINT_H
#define BINDINGS_STDINT_H
typedef __UINT8_TYPE__ uint8_t;
typedef __UINT16_TYPE__ uint16_t;
typedef __UINT32_TYPE__ uint32_t;
typedef __UINT64_TYPE__ uint64_t;
#endif
