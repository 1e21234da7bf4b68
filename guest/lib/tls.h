/* The block of a thread's own variables, which tp points at: image.ld says what it begins with. */
#ifndef GUEST_TLS_H
#define GUEST_TLS_H

extern char __tls_source[], __tls_copied[], __tls_size[], __tls_first[];

/* A number that the linker gives as an address. It may be 0, which the compiler would rule out for one. */
static inline unsigned long tls_number(const char *symbol) {
    unsigned long number = (unsigned long)symbol;
    __asm__("" : "+r"(number));
    return number;
}

/* The room of a block, a multiple of its alignment. */
static inline unsigned long tls_room(void) {
    return (tls_number(__tls_size) + 63) & ~63ul;
}

static inline void tls_fill(char *block) {
    unsigned long copied = tls_number(__tls_copied), size = tls_number(__tls_size);
    for (unsigned long k = 0; k < size; k++) {
        block[k] = k < copied ? __tls_source[k] : 0;
    }
}

#endif
