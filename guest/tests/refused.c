/* Compare-and-exchange compiles to LR and SC with rv64ima: cc refuses this file, and names the function. */
static int word;

int main(void) {
    int none = 0;
    return !__atomic_compare_exchange_n(&word, &none, 1, 0, __ATOMIC_SEQ_CST, __ATOMIC_SEQ_CST);
}
