/* Directories, read record by record from a buffer that getdents64 fills. */
#include <dirent.h>
#include <fcntl.h>
#include <stdlib.h>
#include <string.h>
#include <unistd.h>

#include "answer.h"
#include "guest/calls.h"

struct guest_directory {
    int file;
    long size;
    long next;
    long buffer[256];
};

DIR *fdopendir(int file) {
    DIR *directory = malloc(sizeof *directory);
    if (directory != NULL) {
        directory->file = file;
        directory->size = 0;
        directory->next = 0;
    }
    return directory;
}

DIR *opendir(const char *path) {
    int file = open(path, O_RDONLY | O_DIRECTORY);
    if (file < 0) {
        return NULL;
    }
    DIR *directory = fdopendir(file);
    if (directory == NULL) {
        close(file);
    }
    return directory;
}

struct dirent *readdir(DIR *directory) {
    if (directory->next >= directory->size) {
        long told = guest_call(GUEST_GETDENTS64, directory->file, (long)directory->buffer, sizeof directory->buffer);
        if (answer(told) <= 0) {
            return NULL;
        }
        directory->size = told;
        directory->next = 0;
    }
    struct dirent *entry = (struct dirent *)((char *)directory->buffer + directory->next);
    directory->next += entry->d_reclen;
    return entry;
}

void rewinddir(DIR *directory) {
    lseek(directory->file, 0, SEEK_SET);
    directory->size = 0;
    directory->next = 0;
}

int dirfd(DIR *directory) {
    return directory->file;
}

int closedir(DIR *directory) {
    int told = close(directory->file);
    free(directory);
    return told;
}

int alphasort(const struct dirent **left, const struct dirent **right) {
    return strcmp((*left)->d_name, (*right)->d_name);
}

typedef int (*order_of_any)(const void *, const void *);

int scandir(const char *path, struct dirent ***to, int (*wanted)(const struct dirent *),
            int (*order)(const struct dirent **, const struct dirent **)) {
    DIR *directory = opendir(path);
    if (directory == NULL) {
        return -1;
    }
    struct dirent **found = NULL, *entry;
    int count = 0;
    while ((entry = readdir(directory)) != NULL) {
        if (wanted != NULL && !wanted(entry)) {
            continue;
        }
        struct dirent **more = realloc(found, (size_t)(count + 1) * sizeof *found);
        struct dirent *copy = malloc(entry->d_reclen);
        if (more != NULL) {
            found = more;
        }
        if (more == NULL || copy == NULL) {
            free(copy);
            while (count > 0) {
                free(found[--count]);
            }
            free(found);
            closedir(directory);
            errno = ENOMEM;
            return -1;
        }
        found[count++] = memcpy(copy, entry, entry->d_reclen);
    }
    closedir(directory);
    if (order != NULL && count > 1) {
        qsort(found, (size_t)count, sizeof *found, (order_of_any)order);
    }
    *to = found;
    return count;
}
