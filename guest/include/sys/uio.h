/* Vectors of readv and writev, which the C library lacks. A call has at most sixteen. */
#ifndef GUEST_SYS_UIO_H
#define GUEST_SYS_UIO_H

#include <sys/types.h>

struct iovec {
    void *iov_base;
    size_t iov_len;
};

ssize_t readv(int file, const struct iovec *parts, int count);
ssize_t writev(int file, const struct iovec *parts, int count);

#endif
