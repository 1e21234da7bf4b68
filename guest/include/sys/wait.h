/* The C library's header, whose WIFEXITED looks at a bit too many. */
#ifndef GUEST_SYS_WAIT_H
#define GUEST_SYS_WAIT_H

#include_next <sys/wait.h>

#undef WIFEXITED
#define WIFEXITED(status) (((status) & 0x7f) == 0)

#endif
