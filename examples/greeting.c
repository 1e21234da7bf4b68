/* Greets through writev with the number of primes below 1000, for rv64i without a library: it multiplies and divides nothing. */

struct part {
    const char *text;
    unsigned long len;
};

static char composite[1000];
static char digits[3];

static long call(long number, long a, long b, long c) {
    register long a7 __asm__("a7") = number;
    register long a0 __asm__("a0") = a;
    register long a1 __asm__("a1") = b;
    register long a2 __asm__("a2") = c;
    __asm__ volatile("ecall" : "+r"(a0) : "r"(a7), "r"(a1), "r"(a2) : "memory");
    return a0;
}

static int primes(void) {
    int count = 0;
    for (int n = 2; n < 1000; n++) {
        if (composite[n]) {
            continue;
        }
        count++;
        for (int multiple = n + n; multiple < 1000; multiple += n) {
            composite[multiple] = 1;
        }
    }
    return count;
}

static void write_decimal(int n) {
    static const int powers[3] = {100, 10, 1};
    for (int k = 0; k < 3; k++) {
        digits[k] = '0';
        while (n >= powers[k]) {
            n -= powers[k];
            digits[k]++;
        }
    }
}

void _start(void) {
    static const char before[] = "hello from C: ", behind[] = " primes below 1000\n";
    write_decimal(primes());
    struct part parts[3] = {{before, sizeof before - 1}, {digits, sizeof digits}, {behind, sizeof behind - 1}};
    long all = sizeof before - 1 + sizeof digits + sizeof behind - 1;
    long moved = call(66, 1, (long)parts, 3);
    call(94, moved == all ? 0 : 1, 0, 0);
    for (;;) {
    }
}
