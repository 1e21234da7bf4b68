/* A control register: cc refuses this file, and names the function. */
int main(void) {
    unsigned long now;
    __asm__ volatile(".option push\n.option arch, +zicsr\nrdcycle %0\n.option pop" : "=r"(now));
    return now & 1;
}
