/* The system calls of the node, as they are: numbers are Linux's, an answer below 0 is a negated errno of Linux. */
#ifndef GUEST_CALLS_H
#define GUEST_CALLS_H

enum {
    GUEST_IOCTL = 29,
    GUEST_MKDIRAT = 34,
    GUEST_UNLINKAT = 35,
    GUEST_OPENAT = 56,
    GUEST_CLOSE = 57,
    GUEST_PIPE2 = 59,
    GUEST_GETDENTS64 = 61,
    GUEST_LSEEK = 62,
    GUEST_READ = 63,
    GUEST_WRITE = 64,
    GUEST_READV = 65,
    GUEST_WRITEV = 66,
    GUEST_PREAD64 = 67,
    GUEST_PWRITE64 = 68,
    GUEST_FSTAT = 80,
    GUEST_EXIT = 93,
    GUEST_EXIT_GROUP = 94,
    GUEST_FUTEX = 98,
    GUEST_SCHED_YIELD = 124,
    GUEST_KILL = 129,
    GUEST_TGKILL = 131,
    GUEST_RT_SIGACTION = 134,
    GUEST_RT_SIGPROCMASK = 135,
    GUEST_RT_SIGPENDING = 136,
    GUEST_GETPID = 172,
    GUEST_GETPPID = 173,
    GUEST_GETTID = 178,
    GUEST_BRK = 214,
    GUEST_MUNMAP = 215,
    GUEST_CLONE = 220,
    GUEST_MMAP = 222,
    GUEST_MPROTECT = 226,
    GUEST_WAIT4 = 260,
};

/* openat's directory where a path is relative to the working directory, and flags that it takes. */
enum {
    GUEST_AT_FDCWD = -100,
    GUEST_O_CREAT = 0x40,
    GUEST_O_EXCL = 0x80,
    GUEST_O_TRUNC = 0x200,
    GUEST_O_APPEND = 0x400,
    GUEST_O_DIRECTORY = 0x10000,
    GUEST_AT_REMOVEDIR = 0x200,
};

static inline long guest_call6(long number, long a, long b, long c, long d, long e, long f) {
    register long a7 __asm__("a7") = number;
    register long a0 __asm__("a0") = a;
    register long a1 __asm__("a1") = b;
    register long a2 __asm__("a2") = c;
    register long a3 __asm__("a3") = d;
    register long a4 __asm__("a4") = e;
    register long a5 __asm__("a5") = f;
    __asm__ volatile("ecall" : "+r"(a0) : "r"(a7), "r"(a1), "r"(a2), "r"(a3), "r"(a4), "r"(a5) : "memory");
    return a0;
}

static inline long guest_call(long number, long a, long b, long c) {
    register long a7 __asm__("a7") = number;
    register long a0 __asm__("a0") = a;
    register long a1 __asm__("a1") = b;
    register long a2 __asm__("a2") = c;
    __asm__ volatile("ecall" : "+r"(a0) : "r"(a7), "r"(a1), "r"(a2) : "memory");
    return a0;
}

static inline void guest_exit_group(int status) {
    for (;;) {
        guest_call(GUEST_EXIT_GROUP, status, 0, 0);
    }
}

#endif
