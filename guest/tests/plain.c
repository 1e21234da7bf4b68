/* A guest without a C library: two threads, a lock, and the calls as they are. */
#include <guest.h>
#include <guest/calls.h>

static struct guest_lock lock;
static int sum;

static int add(void *argument) {
    for (int k = 1; k <= 100; k++) {
        guest_lock(&lock);
        sum += *(int *)argument * k;
        guest_unlock(&lock);
    }
    return 0;
}

static void print(const char *text) {
    long size = 0;
    while (text[size] != '\0') {
        size++;
    }
    guest_call(GUEST_WRITE, 1, (long)text, size);
}

static void print_number(int number) {
    char digits[16];
    int at = sizeof digits;
    digits[--at] = '\0';
    do {
        digits[--at] = (char)('0' + number % 10);
        number /= 10;
    } while (number > 0);
    print(digits + at);
}

int main(int argc, char **argv) {
    static int steps[2] = {1, 2};
    struct guest_thread threads[2];
    for (int k = 0; k < 2; k++) {
        if (guest_thread_start(&threads[k], add, &steps[k]) != 0) {
            return 1;
        }
    }
    for (int k = 0; k < 2; k++) {
        guest_thread_join(&threads[k]);
    }
    print("sum ");
    print_number(sum);
    for (int k = 1; k < argc; k++) {
        print(" ");
        print(argv[k]);
    }
    print("\n");
    return sum == 15150 ? 0 : 1;
}
