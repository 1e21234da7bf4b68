/* fork, a pipe, and the ends of children. */
#include <signal.h>
#include <stdio.h>
#include <stdlib.h>
#include <sys/wait.h>
#include <unistd.h>

int main(void) {
    int ends[2], status;
    char text[16];
    if (pipe(ends) < 0) {
        return 1;
    }
    pid_t child = fork();
    if (child == 0) {
        ssize_t written = write(ends[1], "from the child", 14);
        _exit(written == 14 ? 9 : 1);
    }
    ssize_t size = read(ends[0], text, sizeof text);
    waitpid(child, &status, 0);
    printf("%.*s, exit %d %d\n", (int)size, text, WIFEXITED(status), WEXITSTATUS(status));
    fflush(stdout);
    child = fork();
    if (child == 0) {
        abort();
    }
    waitpid(child, &status, 0);
    printf("exit %d, signal %d\n", WIFEXITED(status), WTERMSIG(status));
    printf("no more: %d\n", (int)wait(&status));
    return 0;
}
