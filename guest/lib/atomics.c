/*
 * The calls that the compiler makes for atomic steps where it has no instruction for them: with -march=rv64im and
 * rv64i all of them, and so also compare-and-exchange, which with rv64ima would be LR and SC. One lock is held around
 * each, so they are atomic among themselves. A signal handler may not use them, since it may have interrupted one.
 */
#include "guest.h"

static struct guest_lock lock;

/* The names are the compiler's, which it doesn't let a program declare: they are given to functions of other names. */
#define NAMED(name) __asm__(#name)

#define STEPS(bytes, type) \
    type load_##bytes(const volatile type *at, int order) NAMED(__atomic_load_##bytes); \
    type load_##bytes(const volatile type *at, int order) { \
        (void)order; \
        guest_lock(&lock); \
        type old = *at; \
        guest_unlock(&lock); \
        return old; \
    } \
    void store_##bytes(volatile type *at, type value, int order) NAMED(__atomic_store_##bytes); \
    void store_##bytes(volatile type *at, type value, int order) { \
        (void)order; \
        guest_lock(&lock); \
        *at = value; \
        guest_unlock(&lock); \
    } \
    type exchange_##bytes(volatile type *at, type value, int order) NAMED(__atomic_exchange_##bytes); \
    type exchange_##bytes(volatile type *at, type value, int order) { \
        (void)order; \
        guest_lock(&lock); \
        type old = *at; \
        *at = value; \
        guest_unlock(&lock); \
        return old; \
    } \
    _Bool compare_##bytes(volatile type *at, type *wanted, type value, int order, int other) \
        NAMED(__atomic_compare_exchange_##bytes); \
    _Bool compare_##bytes(volatile type *at, type *wanted, type value, int order, int other) { \
        (void)order; \
        (void)other; \
        guest_lock(&lock); \
        type old = *at; \
        _Bool same = old == *wanted; \
        if (same) { \
            *at = value; \
        } \
        guest_unlock(&lock); \
        *wanted = old; \
        return same; \
    } \
    CHANGE(bytes, type, add, old + value) \
    CHANGE(bytes, type, sub, old - value) \
    CHANGE(bytes, type, and, old &value) \
    CHANGE(bytes, type, or, old | value) \
    CHANGE(bytes, type, xor, old ^ value)

#define CHANGE(bytes, type, word, next) \
    type fetch_##word##_##bytes(volatile type *at, type value, int order) NAMED(__atomic_fetch_##word##_##bytes); \
    type fetch_##word##_##bytes(volatile type *at, type value, int order) { \
        (void)order; \
        guest_lock(&lock); \
        type old = *at; \
        *at = (type)(next); \
        guest_unlock(&lock); \
        return old; \
    }

STEPS(1, unsigned char)
STEPS(2, unsigned short)
STEPS(4, unsigned int)
STEPS(8, unsigned long)
