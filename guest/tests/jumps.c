/* setjmp and longjmp over several calls. */
#include <setjmp.h>
#include <stdio.h>

static jmp_buf places[3];

static int descend(int depth, int to) {
    if (depth == 0) {
        longjmp(places[to], to);
    }
    return depth < 0 ? 0 : 1 + descend(depth - 1, to);
}

int main(void) {
    for (volatile int k = 0; k < 3; k++) {
        int told = setjmp(places[k]);
        if (told == 0) {
            printf("down %d\n", k);
            printf("not reached: %d\n", descend(10 * k + 1, k));
        }
        /* A jump with 0 answers 1. */
        printf("back with %d\n", told);
    }
    return 0;
}
