/*
 * The three standard streams, and what the C library leaves out at the end of a program: the streams that are still
 * open are written out. cc links with --wrap for the functions that begin with __wrap_.
 */
#include <stdio-bufio.h>
#include <stdio.h>
#include <unistd.h>

#include "locks.h"

#define OPEN_STREAMS 64 /* as many as a process has descriptors */

static char in_buffer[4096], out_buffer[4096], error_buffer[256];

static struct __lock in_lock, out_lock, error_lock;

static struct __file_bufio in = FDEV_SETUP_BUFIO(0, in_buffer, sizeof in_buffer, read, write, lseek, close, __SRD, 0);
/* Standard output is a file and no terminal, so it is written when 4,096 bytes are there, and at the end. */
static struct __file_bufio out =
    FDEV_SETUP_BUFIO(1, out_buffer, sizeof out_buffer, read, write, lseek, close, __SWR, 0);
static struct __file_bufio error =
    FDEV_SETUP_BUFIO(2, error_buffer, sizeof error_buffer, read, write, lseek, close, __SWR, __BLBF);

FILE *const stdin = (FILE *)&in;
FILE *const stdout = (FILE *)&out;
FILE *const stderr = (FILE *)&error;

static FILE *streams[OPEN_STREAMS];

extern int guest_threaded;

__attribute__((constructor)) static void begin_streams(void) {
    in.lock = &in_lock;
    out.lock = &out_lock;
    error.lock = &error_lock;
}

FILE *__real_fdopen(int file, const char *mode);
int __real_fclose(FILE *stream);
int __real_fflush(FILE *stream);
int __real___bufio_get(FILE *stream);
int __real___bufio_put(char c, FILE *stream);

/*
 * The library's ways of one character take about sixty instructions each, and its getc as many again. Where there is
 * one thread and the buffer has something, or has room, these need few.
 */
int __wrap___bufio_get(FILE *stream) {
    struct __file_bufio *buffer = (struct __file_bufio *)stream;
    if (!guest_threaded && buffer->dir == __SRD && buffer->off < buffer->len) {
        return (unsigned char)buffer->buf[buffer->off++];
    }
    return __real___bufio_get(stream);
}

int __wrap___bufio_put(char c, FILE *stream) {
    struct __file_bufio *buffer = (struct __file_bufio *)stream;
    /* The last place is left to the library, which writes the buffer out. */
    if (!guest_threaded && buffer->dir == __SWR && buffer->len + 1 < buffer->size && !(buffer->bflags & __BLBF)) {
        buffer->buf[buffer->len++] = c;
        return (unsigned char)c;
    }
    return __real___bufio_put(c, stream);
}

int fgetc(FILE *stream) {
    if (!(stream->flags & __SRD)) {
        return EOF;
    }
    /*
     * What ungetc put back has its byte below a bit that says so. Two threads that read one stream have to lock it
     * themselves.
     */
    if (stream->unget != 0) {
        int c = (unsigned char)stream->unget;
        stream->unget = 0;
        return c;
    }
    int c = stream->get(stream);
    if (c < 0) {
        stream->flags |= c == _FDEV_ERR ? __SERR : __SEOF;
        return EOF;
    }
    return c;
}

#undef getc
int getc(FILE *stream) {
    return fgetc(stream);
}

FILE *__wrap_fdopen(int file, const char *mode) {
    FILE *stream = __real_fdopen(file, mode);
    __LIBC_LOCK();
    for (int k = 0; stream != NULL && k < OPEN_STREAMS; k++) {
        if (streams[k] == NULL) {
            streams[k] = stream;
            break;
        }
    }
    __LIBC_UNLOCK();
    return stream;
}

int __wrap_fclose(FILE *stream) {
    __LIBC_LOCK();
    for (int k = 0; k < OPEN_STREAMS; k++) {
        if (streams[k] == stream) {
            streams[k] = NULL;
        }
    }
    __LIBC_UNLOCK();
    return __real_fclose(stream);
}

/* Writes out each stream that may be written. One that is read is left alone: it would only be set back. */
static int flush_all(void) {
    int told = __real_fflush(stdout) | __real_fflush(stderr);
    for (int k = 0; k < OPEN_STREAMS; k++) {
        if (streams[k] != NULL && (streams[k]->flags & __SWR)) {
            told |= __real_fflush(streams[k]);
        }
    }
    return told != 0 ? EOF : 0;
}

int __wrap_fflush(FILE *stream) {
    return stream != NULL ? __real_fflush(stream) : flush_all();
}

/* The lowest number that a program may give: it runs after all other destructors and what atexit was told. */
__attribute__((destructor(101))) static void end_streams(void) {
    flush_all();
}
