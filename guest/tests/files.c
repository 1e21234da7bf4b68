/* Streams on files, places in them, directories, and what calls answer that fail. */
#include <dirent.h>
#include <errno.h>
#include <fcntl.h>
#include <stdio.h>
#include <stdlib.h>
#include <string.h>
#include <sys/stat.h>
#include <unistd.h>

static void told(const char *what, long answer) {
    printf("%s: %s\n", what, answer < 0 ? strerror(errno) : "done");
}

static int no_dots(const struct dirent *entry) {
    return entry->d_name[0] != '.';
}

int main(void) {
    told("mkdir", mkdir("shelf", 0777));
    told("mkdir again", mkdir("shelf", 0777));

    FILE *file = fopen("shelf/numbers", "w");
    for (int k = 0; k < 60; k++) {
        fprintf(file, "%d %g\n", k, k / 8.0);
    }
    fclose(file);

    file = fopen("shelf/numbers", "r+");
    fseek(file, -9, SEEK_END);
    long place = ftell(file);
    int n;
    double x;
    while (fscanf(file, "%d %lf", &n, &x) == 2) {
        printf("from %ld on: %d %.3f\n", place, n, x);
    }
    rewind(file);
    char line[32];
    printf("first: %s", fgets(line, sizeof line, file));
    ungetc('!', file);
    printf("put back: %c\n", getc(file));
    fclose(file);

    struct stat about;
    told("stat", stat("shelf/numbers", &about));
    printf("%ld bytes, %s\n", (long)about.st_size, S_ISREG(about.st_mode) ? "a file" : "no file");
    stat("shelf", &about);
    printf("%s\n", S_ISDIR(about.st_mode) ? "a directory" : "no directory");

    file = fopen("shelf/notes", "a");
    fputs("one\n", file);
    fclose(file);
    file = fopen("shelf/notes", "a+");
    fputs("two\n", file);
    rewind(file);
    while (fgets(line, sizeof line, file) != NULL) {
        printf("note: %s", line);
    }
    fclose(file);

    struct dirent **entries;
    int count = scandir("shelf", &entries, no_dots, alphasort);
    for (int k = 0; k < count; k++) {
        printf("entry %s\n", entries[k]->d_name);
        free(entries[k]);
    }
    free(entries);
    DIR *directory = opendir("shelf");
    for (count = 0; readdir(directory) != NULL; count++) {
    }
    closedir(directory);
    printf("%d with the dots\n", count);

    told("open what is not there", open("nothing", O_RDONLY));
    told("open exclusively", open("shelf/notes", O_CREAT | O_EXCL | O_WRONLY, 0666));
    told("open as a directory", open("shelf/notes", O_DIRECTORY));
    told("rmdir of a full one", rmdir("shelf"));
    char path[300];
    memset(path, 'n', sizeof path - 1);
    path[sizeof path - 1] = '\0';
    told("a long name", open(path, O_RDONLY));
    told("unlink", unlink("shelf/notes"));
    told("remove", remove("shelf/numbers"));
    told("rmdir", rmdir("shelf"));
    told("opendir", opendir("shelf") == NULL ? -1 : 0);
    told("isatty", isatty(1) ? 0 : -1);
    told("rename", rename("a", "b"));

    /* Left open: the end of the program writes it out. */
    file = fopen("left", "w");
    fputs("written at the end\n", file);
    return 0;
}
