/* What stands before main in a guest with the C library, and the ends of a process. */
#include <stdlib.h>
#include <unistd.h>

#include "guest/calls.h"
#include "tls.h"

int main(int argc, char **argv, char **environ);
void __libc_init_array(void);

char **environ;

/* The library calls these two around its own constructors and destructors. */
void _init(void) {
}

void _fini(void) {
}

__attribute__((noreturn)) void guest_begin(long *stack) {
    int argc = (int)stack[0];
    char **argv = (char **)(stack + 1);
    environ = argv + argc + 1;
    /* errno is one of a thread's own variables, so tp comes before the first call of the library. */
    tls_fill(__tls_first);
    __asm__ volatile("mv tp, %0" : : "r"(__tls_first));
    __libc_init_array();
    exit(main(argc, argv, environ));
}

__attribute__((noreturn)) void _exit(int status) {
    guest_exit_group(status);
    __builtin_unreachable();
}
