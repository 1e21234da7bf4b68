/* Files, by the node's delegated calls. Flags and struct stat are the C library's own and not Linux's. */
#include <fcntl.h>
#include <stdarg.h>
#include <string.h>
#include <sys/stat.h>
#include <sys/uio.h>
#include <unistd.h>

#include "answer.h"
#include "guest/calls.h"

/* The record that fstat stores, as Linux has it for riscv64. */
struct record {
    unsigned long device;
    unsigned long node;
    unsigned int mode;
    unsigned int links;
    unsigned int user;
    unsigned int group;
    unsigned long special;
    unsigned long unused;
    long size;
    int block_size;
    int unused_too;
    long blocks;
    long times[6];
    int last[2];
};
_Static_assert(sizeof(struct record) == 128, "fstat stores 128 bytes");

/* The library numbers directories and flags by itself. */
static int directory_of(int directory) {
    return directory == AT_FDCWD ? GUEST_AT_FDCWD : directory;
}

static int flags_of(int flags) {
    return (flags & O_ACCMODE) | (flags & O_CREAT ? GUEST_O_CREAT : 0) | (flags & O_EXCL ? GUEST_O_EXCL : 0) |
           (flags & O_TRUNC ? GUEST_O_TRUNC : 0) | (flags & O_APPEND ? GUEST_O_APPEND : 0) |
           (flags & O_DIRECTORY ? GUEST_O_DIRECTORY : 0);
}

int openat(int directory, const char *path, int flags, ...) {
    int mode = 0;
    if (flags & O_CREAT) {
        va_list more;
        va_start(more, flags);
        mode = va_arg(more, int);
        va_end(more);
    }
    return (int)answer(guest_call6(GUEST_OPENAT, directory_of(directory), (long)path, flags_of(flags), mode, 0, 0));
}

int open(const char *path, int flags, ...) {
    int mode = 0;
    if (flags & O_CREAT) {
        va_list more;
        va_start(more, flags);
        mode = va_arg(more, int);
        va_end(more);
    }
    return openat(AT_FDCWD, path, flags, mode);
}

int creat(const char *path, mode_t mode) {
    return open(path, O_WRONLY | O_CREAT | O_TRUNC, mode);
}

int close(int file) {
    return (int)answer(guest_call(GUEST_CLOSE, file, 0, 0));
}

ssize_t read(int file, void *bytes, size_t size) {
    return answer(guest_call(GUEST_READ, file, (long)bytes, (long)size));
}

ssize_t write(int file, const void *bytes, size_t size) {
    return answer(guest_call(GUEST_WRITE, file, (long)bytes, (long)size));
}

ssize_t pread(int file, void *bytes, size_t size, off_t place) {
    return answer(guest_call6(GUEST_PREAD64, file, (long)bytes, (long)size, place, 0, 0));
}

ssize_t pwrite(int file, const void *bytes, size_t size, off_t place) {
    return answer(guest_call6(GUEST_PWRITE64, file, (long)bytes, (long)size, place, 0, 0));
}

ssize_t readv(int file, const struct iovec *parts, int count) {
    return answer(guest_call(GUEST_READV, file, (long)parts, count));
}

ssize_t writev(int file, const struct iovec *parts, int count) {
    return answer(guest_call(GUEST_WRITEV, file, (long)parts, count));
}

off_t lseek(int file, off_t offset, int from) {
    return answer(guest_call(GUEST_LSEEK, file, offset, from));
}

int fstat(int file, struct stat *to) {
    struct record record;
    long told = guest_call(GUEST_FSTAT, file, (long)&record, 0);
    if (told < 0) {
        return (int)answer(told);
    }
    memset(to, 0, sizeof *to);
    to->st_dev = (dev_t)record.device;
    to->st_ino = (ino_t)record.node;
    to->st_mode = record.mode;
    to->st_nlink = (nlink_t)record.links;
    to->st_size = record.size;
    to->st_blksize = record.block_size;
    to->st_blocks = record.blocks;
    return 0;
}

/* The node tells only of open files. */
int stat(const char *restrict path, struct stat *restrict to) {
    int file = open(path, O_RDONLY);
    if (file < 0) {
        return -1;
    }
    int told = fstat(file, to);
    close(file);
    return told;
}

int lstat(const char *restrict path, struct stat *restrict to) {
    return stat(path, to);
}

/* There are no rights of users: what is there may be read and written. */
int access(const char *path, int mode) {
    struct stat ignored;
    (void)mode;
    return stat(path, &ignored);
}

int mkdir(const char *path, mode_t mode) {
    return (int)answer(guest_call(GUEST_MKDIRAT, GUEST_AT_FDCWD, (long)path, mode));
}

int unlink(const char *path) {
    return (int)answer(guest_call(GUEST_UNLINKAT, GUEST_AT_FDCWD, (long)path, 0));
}

int rmdir(const char *path) {
    return (int)answer(guest_call(GUEST_UNLINKAT, GUEST_AT_FDCWD, (long)path, GUEST_AT_REMOVEDIR));
}

int pipe(int ends[2]) {
    return (int)answer(guest_call(GUEST_PIPE2, (long)ends, 0, 0));
}

/*
 * No descriptor is a terminal. Under Linux a pipe and a file aren't, so a program behaves as it does there with its
 * output in a file.
 */
int isatty(int file) {
    char record[64];
    return answer(guest_call(GUEST_IOCTL, file, 0x5401, (long)record)) == 0;
}
