/* What stands before main in a guest without a C library. */
#include "guest/calls.h"
#include "tls.h"

int main(int argc, char **argv);

__attribute__((noreturn)) void guest_begin(long *stack) {
    tls_fill(__tls_first);
    __asm__ volatile("mv tp, %0" : : "r"(__tls_first));
    guest_exit_group(main((int)stack[0], (char **)(stack + 1)));
    __builtin_unreachable();
}
