/* The heap and mappings. */
#include <stdint.h>
#include <sys/mman.h>
#include <unistd.h>

#include "answer.h"
#include "guest/calls.h"

/*
 * The C library asks for each small piece by itself, so the break is moved by eight pages at a time. A page takes a
 * frame when the break passes it, so where eight aren't free it is moved no further than needed.
 */
#define STEP 32768
#define PAGE 4096

static uintptr_t heap_used, heap_end;

void *sbrk(ptrdiff_t size) {
    if (heap_end == 0) {
        heap_used = heap_end = (uintptr_t)guest_call(GUEST_BRK, 0, 0, 0);
    }
    uintptr_t used = heap_used, wanted = used + (uintptr_t)size;
    if (size > 0 && wanted < used) {
        errno = ENOMEM;
        return (void *)-1;
    }
    if (wanted > heap_end) {
        uintptr_t far = (wanted + STEP - 1) & ~(uintptr_t)(STEP - 1);
        uintptr_t near = (wanted + PAGE - 1) & ~(uintptr_t)(PAGE - 1);
        uintptr_t end = (uintptr_t)guest_call(GUEST_BRK, (long)far, 0, 0);
        if (end < wanted) {
            end = (uintptr_t)guest_call(GUEST_BRK, (long)near, 0, 0);
        }
        if (end < wanted) {
            errno = ENOMEM;
            return (void *)-1;
        }
        heap_end = end;
    }
    heap_used = wanted;
    return (void *)used;
}

void *mmap(void *address, size_t size, int rights, int flags, int file, off_t place) {
    return (void *)answer(guest_call6(GUEST_MMAP, (long)address, (long)size, rights, flags, file, place));
}

int munmap(void *address, size_t size) {
    return (int)answer(guest_call(GUEST_MUNMAP, (long)address, (long)size, 0));
}

int mprotect(void *address, size_t size, int rights) {
    return (int)answer(guest_call(GUEST_MPROTECT, (long)address, (long)size, rights));
}
