/* What compilers call of the C library in any program, for programs that are linked without one. */
#include "memory.h"

#include <stdint.h>

/* gcc would make a call of memcpy of the loop in memcpy. */
#if defined(__GNUC__) && !defined(__clang__)
#pragma GCC optimize("no-tree-loop-distribute-patterns")
#endif

void *memcpy(void *restrict to, const void *restrict from, size_t count) {
    unsigned char *out = to;
    const unsigned char *in = from;
    if (((uintptr_t)out | (uintptr_t)in) % 4 == 0) {
        for (; count >= 4; count -= 4, out += 4, in += 4) {
            *(uint32_t *)out = *(const uint32_t *)in;
        }
    }
    while (count-- > 0) {
        *out++ = *in++;
    }
    return to;
}

void *memmove(void *to, const void *from, size_t count) {
    unsigned char *out = to;
    const unsigned char *in = from;
    if ((uintptr_t)out - (uintptr_t)in >= count) {
        return memcpy(to, from, count);
    }
    while (count-- > 0) {
        out[count] = in[count];
    }
    return to;
}

void *memset(void *to, int byte, size_t count) {
    unsigned char *out = to;
    for (; count > 0 && (uintptr_t)out % 4 != 0; count--) {
        *out++ = (unsigned char)byte;
    }
    const uint32_t word = 0x01010101u * (unsigned char)byte;
    for (; count >= 4; count -= 4, out += 4) {
        *(uint32_t *)out = word;
    }
    while (count-- > 0) {
        *out++ = (unsigned char)byte;
    }
    return to;
}

int memcmp(const void *one, const void *other, size_t count) {
    const unsigned char *a = one;
    const unsigned char *b = other;
    for (size_t i = 0; i < count; i++) {
        if (a[i] != b[i]) {
            return a[i] < b[i] ? -1 : 1;
        }
    }
    return 0;
}
