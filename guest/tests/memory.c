/* The kit's moves over memory against loops over bytes, at each alignment. */
#include <stdio.h>
#include <string.h>

#define SIZE 120

static unsigned char left[SIZE], right[SIZE];

static void fill(void) {
    for (int k = 0; k < SIZE; k++) {
        left[k] = right[k] = (unsigned char)(k * 37 + 11);
    }
}

static int same(void) {
    for (int k = 0; k < SIZE; k++) {
        if (left[k] != right[k]) {
            return 0;
        }
    }
    return 1;
}

int main(void) {
    int wrong = 0, tried = 0;
    for (int size = 0; size < 46; size += size < 10 ? 1 : 9) {
        for (int from = 0; from < 9; from += 4) {
            for (int to = 0; to < 12; to += 3) {
                unsigned char saved[64];
                fill();
                memmove(left + to, left + from, (size_t)size);
                for (int k = 0; k < size; k++) {
                    saved[k] = right[from + k];
                }
                for (int k = 0; k < size; k++) {
                    right[to + k] = saved[k];
                }
                wrong += !same();
                fill();
                memcpy(left + 60 + to, left + from, (size_t)size);
                for (int k = 0; k < size; k++) {
                    right[60 + to + k] = right[from + k];
                }
                wrong += !same();
                wrong += memcmp(left + 60 + to, right + from, (size_t)size) != 0;
                memset(left + to, to, (size_t)size);
                for (int k = 0; k < size; k++) {
                    right[to + k] = (unsigned char)to;
                }
                wrong += !same();
                tried++;
            }
        }
    }
    wrong += !(memcmp("abcdefgh1", "abcdefgh2", 9) < 0) + !(memcmp("abcd\xff", "abcd\x01", 5) > 0);
    printf("%d sizes and places, %d wrong\n", tried, wrong);
    return 0;
}
