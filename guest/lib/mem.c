/*
 * The moves over memory that compilers call for. The C library's own go byte by byte, which is most of what a program
 * executes here. The machine takes a doubleword from any address in one step, so these go by doublewords wherever
 * they begin; cc compiles this file with -mno-strict-align and -mtune=size, and with
 * -fno-tree-loop-distribute-patterns, so that no loop becomes a call of the function it stands in.
 */
#include <stddef.h>

struct word {
    unsigned long value;
} __attribute__((packed, may_alias));

#define WORD(address) (((struct word *)(address))->value)
#define SOURCE(address) (((const struct word *)(address))->value)

void *memcpy(void *restrict to, const void *restrict from, size_t size) {
    char *t = to;
    const char *f = from;
    for (; size >= 32; size -= 32, t += 32, f += 32) {
        unsigned long a = SOURCE(f), b = SOURCE(f + 8), c = SOURCE(f + 16), d = SOURCE(f + 24);
        WORD(t) = a;
        WORD(t + 8) = b;
        WORD(t + 16) = c;
        WORD(t + 24) = d;
    }
    for (; size >= 8; size -= 8, t += 8, f += 8) {
        WORD(t) = SOURCE(f);
    }
    for (; size > 0; size--) {
        *t++ = *f++;
    }
    return to;
}

void *memmove(void *to, const void *from, size_t size) {
    char *t = to;
    const char *f = from;
    if ((size_t)t - (size_t)f >= size) {
        /*
         * Upwards nothing is read after it was written, also where the two overlap: each step reads all of its bytes
         * first.
         */
        for (; size >= 8; size -= 8, t += 8, f += 8) {
            WORD(t) = SOURCE(f);
        }
        for (; size > 0; size--) {
            *t++ = *f++;
        }
        return to;
    }
    for (; size >= 8; size -= 8) {
        WORD(t + size - 8) = SOURCE(f + size - 8);
    }
    while (size > 0) {
        size--;
        t[size] = f[size];
    }
    return to;
}

void *memset(void *to, int byte, size_t size) {
    char *t = to;
    unsigned long word = (unsigned char)byte;
    word |= word << 8;
    word |= word << 16;
    word |= word << 32;
    for (; size >= 32; size -= 32, t += 32) {
        WORD(t) = word;
        WORD(t + 8) = word;
        WORD(t + 16) = word;
        WORD(t + 24) = word;
    }
    for (; size >= 8; size -= 8, t += 8) {
        WORD(t) = word;
    }
    for (; size > 0; size--) {
        *t++ = (char)byte;
    }
    return to;
}

int memcmp(const void *left, const void *right, size_t size) {
    const unsigned char *l = left, *r = right;
    for (; size >= 8 && SOURCE(l) == SOURCE(r); size -= 8) {
        l += 8;
        r += 8;
    }
    for (; size > 0; size--, l++, r++) {
        if (*l != *r) {
            return *l < *r ? -1 : 1;
        }
    }
    return 0;
}
