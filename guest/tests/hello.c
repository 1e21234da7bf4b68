/* printf with floats, and the words of the guest. */
#include <math.h>
#include <stdio.h>
#include <stdlib.h>

int main(int argc, char **argv) {
    printf("hello, %d words\n", argc - 1);
    for (int k = 1; k < argc; k++) {
        char *rest;
        double x = strtod(argv[k], &rest);
        printf("%s: %.3f %g %e sqrt %.6f, rest '%s'\n", argv[k], x, x, x, sqrt(x), rest);
    }
    printf("%5.1f|%-8s|%08x|%ld|%c|%%\n", 2.25, "left", 0xbeef, -1234567890123L, 'c');
    fprintf(stderr, "and on standard error\n");
    return argc;
}
