/* What <dirent.h> of the C library asks of a system. */
#ifndef GUEST_SYS_DIRENT_H
#define GUEST_SYS_DIRENT_H

#include <sys/types.h>

/* The record that getdents64 stores. */
struct dirent {
    unsigned long d_ino;
    long d_off;
    unsigned short d_reclen;
    unsigned char d_type;
    char d_name[256];
};

#define DT_UNKNOWN 0
#define DT_DIR 4
#define DT_REG 8

typedef struct guest_directory DIR;

#endif
