/* A compressed instruction: cc refuses this file, and names the function. */
int main(int argc, char **argv) {
    (void)argv;
    __asm__ volatile(".option push\n.option arch, +c\nc.addi %0, 1\n.option pop" : "+r"(argc));
    return argc;
}
