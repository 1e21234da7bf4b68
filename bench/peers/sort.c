/* Heap sort of 12,000 words, some 3 million instructions. */
#include <guest.h>

#define COUNT 12000

static unsigned words[COUNT];

static void sift(int root, int end) {
    unsigned moved = words[root];
    for (int child; (child = 2 * root + 1) < end; root = child) {
        if (child + 1 < end && words[child] < words[child + 1])
            child++;
        if (words[child] <= moved)
            break;
        words[root] = words[child];
    }
    words[root] = moved;
}

int main(void) {
    unsigned state = 1;
    for (int i = 0; i < COUNT; i++) {
        state = state * 1664525u + 1013904223u;
        words[i] = state;
    }
    for (int i = COUNT / 2; i-- > 0;)
        sift(i, COUNT);
    for (int end = COUNT; --end > 0;) {
        unsigned last = words[end];
        words[end] = words[0];
        words[0] = last;
        sift(0, end);
    }
    for (int i = 1; i < COUNT; i++)
        if (words[i - 1] > words[i])
            return 1;
    return 7;
}
