/* An instruction of floating point: cc refuses this file, and names the function. */
int main(int argc, char **argv) {
    (void)argv;
    __asm__ volatile(".option push\n.option arch, +f\nfmv.w.x f1, %0\n.option pop" : : "r"(argc));
    return 0;
}
