/*
 * Calls that programs ask for and the node hasn't: each answers an error, so that a program links, and goes on where
 * it can do without.
 */
#include <fcntl.h>
#include <limits.h>
#include <stdarg.h>
#include <stdio.h>
#include <stdlib.h>
#include <string.h>
#include <sys/stat.h>
#include <unistd.h>

#include "answer.h"
#include "guest/calls.h"

int rename(const char *from, const char *to) {
    (void)from;
    (void)to;
    return missing();
}

int link(const char *from, const char *to) {
    (void)from;
    (void)to;
    return missing();
}

int symlink(const char *from, const char *to) {
    (void)from;
    (void)to;
    return missing();
}

/* There are no links, so a path that is there is none. */
ssize_t readlink(const char *restrict path, char *restrict to, size_t size) {
    (void)to;
    (void)size;
    if (access(path, F_OK) == 0) {
        errno = EINVAL;
    }
    return -1;
}

struct utimbuf;

/* Files have no times. */
int utime(const char *path, const struct utimbuf *times) {
    (void)path;
    (void)times;
    return missing();
}

int dup(int file) {
    (void)file;
    return missing();
}

int dup2(int file, int to) {
    (void)file;
    (void)to;
    return missing();
}

int fcntl(int file, int command, ...) {
    (void)file;
    (void)command;
    return missing();
}

int ioctl(int file, unsigned long request, ...) {
    return (int)answer(guest_call(GUEST_IOCTL, file, (long)request, 0));
}

int ftruncate(int file, off_t size) {
    (void)file;
    (void)size;
    return missing();
}

int truncate(const char *path, off_t size) {
    (void)path;
    (void)size;
    return missing();
}

/* A write is in the file when it is answered. */
int fsync(int file) {
    (void)file;
    return 0;
}

int fdatasync(int file) {
    return fsync(file);
}

int chdir(const char *path) {
    (void)path;
    return missing();
}

/* A process works in the root and can't leave it. */
char *getcwd(char *to, size_t size) {
    if (to == NULL) {
        return strdup("/");
    }
    if (size < 2) {
        errno = ERANGE;
        return NULL;
    }
    return strcpy(to, "/");
}

int chmod(const char *path, mode_t mode) {
    (void)path;
    (void)mode;
    return missing();
}

int fchmod(int file, mode_t mode) {
    (void)file;
    (void)mode;
    return missing();
}

int chown(const char *path, uid_t user, gid_t group) {
    (void)path;
    (void)user;
    (void)group;
    return missing();
}

int fchown(int file, uid_t user, gid_t group) {
    (void)file;
    (void)user;
    (void)group;
    return missing();
}

mode_t umask(mode_t mode) {
    (void)mode;
    return 022;
}

uid_t getuid(void) {
    return 0;
}

uid_t geteuid(void) {
    return 0;
}

gid_t getgid(void) {
    return 0;
}

gid_t getegid(void) {
    return 0;
}

int execve(const char *path, char *const words[], char *const environment[]) {
    (void)path;
    (void)words;
    (void)environment;
    return missing();
}

int execvp(const char *name, char *const words[]) {
    return execve(name, words, NULL);
}

FILE *popen(const char *command, const char *mode) {
    (void)command;
    (void)mode;
    missing();
    return NULL;
}

int pclose(FILE *stream) {
    (void)stream;
    return missing();
}

int getentropy(void *to, size_t size) {
    (void)to;
    (void)size;
    return missing();
}

long sysconf(int name) {
    switch (name) {
    case _SC_PAGESIZE:
        return 4096;
    case _SC_OPEN_MAX:
        return 64;
    case _SC_NPROCESSORS_ONLN:
        return 1;
    default:
        errno = EINVAL;
        return -1;
    }
}
