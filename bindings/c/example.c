#include <stdio.h>
#include "fascjoldi.h"

int main(void)
{
    uint64_t values[1024], packed[16 * 10] = {0}, value = 0, words = 0;
    size_t place = 0;
    for (size_t i = 0; i < 1024; i++) {
        values[i] = i;
    }
    size_t number = fascjoldi_pack_u64(10, values, 1024, packed, 160, &place);
    if (number != FASCJOLDI_DONE) {
        printf("refused with %zu at %zu\n", number, place);
        return 1;
    }
    number = fascjoldi_unpack_single_u64(10, packed, 160, 1000, &value, &words, &place);
    printf("number %zu: value %lu, from %lu packed word\n", number, value, words);
    number = fascjoldi_unpack_single_u64(10, packed, 160, 1024, &value, &words, &place);
    printf("number %zu at place %zu: there is no such place\n", number, place);
    return 0;
}
