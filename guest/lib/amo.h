/*
 * Atomic steps without LR and SC, whatever the code around is compiled for: the machine has the AMO instructions
 * always. The C compiler's own exchange and addition are these instructions with -march=rv64ima, and calls of a
 * library with rv64i and rv64im.
 */
#ifndef GUEST_AMO_H
#define GUEST_AMO_H

static inline int amo_swap(int *word, int value) {
    int old;
    __asm__ volatile(".option push\n\t.option arch, +a\n\tamoswap.w.aqrl %0, %2, %1\n\t.option pop"
                     : "=r"(old), "+A"(*word)
                     : "r"(value)
                     : "memory");
    return old;
}

static inline int amo_add(int *word, int value) {
    int old;
    __asm__ volatile(".option push\n\t.option arch, +a\n\tamoadd.w.aqrl %0, %2, %1\n\t.option pop"
                     : "=r"(old), "+A"(*word)
                     : "r"(value)
                     : "memory");
    return old;
}

/* A load that is neither moved nor left out. */
static inline int amo_load(int *word) {
    int value = *(volatile int *)word;
    __asm__ volatile("fence" : : : "memory");
    return value;
}

#endif
