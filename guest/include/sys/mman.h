/* Mappings, which the C library lacks: private and anonymous ones. */
#ifndef GUEST_SYS_MMAN_H
#define GUEST_SYS_MMAN_H

#include <sys/types.h>

#define PROT_NONE 0
#define PROT_READ 1
#define PROT_WRITE 2
#define PROT_EXEC 4
#define MAP_SHARED 0x01
#define MAP_PRIVATE 0x02
#define MAP_FIXED 0x10
#define MAP_ANONYMOUS 0x20
#define MAP_ANON MAP_ANONYMOUS
#define MAP_FAILED ((void *)-1)

void *mmap(void *address, size_t size, int rights, int flags, int file, off_t place);
int munmap(void *address, size_t size);
int mprotect(void *address, size_t size, int rights);

#endif
