/* Compare-and-exchange, which needs -march=rv64im: two threads push numbers to a list without a lock of their own. */
#include <guest.h>
#include <stdio.h>

struct item {
    int number;
    struct item *next;
};

static struct item items[200], *list;

static int push(void *argument) {
    struct item *mine = argument;
    for (int k = 0; k < 100; k++) {
        mine[k].number = (int)(&mine[k] - items);
        mine[k].next = __atomic_load_n(&list, __ATOMIC_ACQUIRE);
        while (!__atomic_compare_exchange_n(&list, &mine[k].next, &mine[k], 0, __ATOMIC_ACQ_REL, __ATOMIC_ACQUIRE)) {
        }
    }
    return 0;
}

int main(void) {
    struct guest_thread threads[2];
    for (int k = 0; k < 2; k++) {
        guest_thread_start(&threads[k], push, items + 100 * k);
    }
    guest_thread_join(&threads[0]);
    guest_thread_join(&threads[1]);
    int count = 0, sum = 0;
    for (struct item *item = list; item != NULL; item = item->next) {
        count++;
        sum += item->number;
    }
    printf("%d items, sum %d\n", count, sum);
    return 0;
}
