/* 10,000 writes of one byte each to standard output. */
#include <guest.h>
#include <guest/calls.h>

int main(void) {
    for (int i = 0; i < 10000; i++)
        if (guest_call(GUEST_WRITE, 1, (long)"x", 1) != 1)
            return 1;
    return 0;
}
