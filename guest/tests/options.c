/* getopt over the guest's words, and the console input. */
#include <ctype.h>
#include <getopt.h>
#include <stdio.h>
#include <stdlib.h>

int main(int argc, char **argv) {
    int option, number = 0, upper = 0;
    while ((option = getopt(argc, argv, "n:u")) != -1) {
        switch (option) {
        case 'n':
            number = atoi(optarg);
            break;
        case 'u':
            upper = 1;
            break;
        default:
            return 2;
        }
    }
    printf("n %d, u %d", number, upper);
    for (int k = optind; k < argc; k++) {
        printf(", word %s", argv[k]);
    }
    putchar('\n');
    int c;
    while ((c = getchar()) != EOF) {
        putchar(upper ? toupper(c) : c);
    }
    return 0;
}
