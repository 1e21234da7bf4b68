/* malloc, realloc and free, qsort and bsearch: words that are sorted, and a heap that grows and is given back. */
#include <stdio.h>
#include <stdlib.h>
#include <string.h>

static int by_text(const void *left, const void *right) {
    return strcmp(*(char *const *)left, *(char *const *)right);
}

int main(void) {
    char **words = NULL;
    int count = 0;
    unsigned seed = 7;
    for (int k = 0; k < 40; k++) {
        words = realloc(words, (size_t)(count + 1) * sizeof *words);
        char *word = malloc(8);
        for (int i = 0; i < 5; i++) {
            seed = seed * 1103515245 + 12345;
            word[i] = (char)('a' + seed / 65536 % 26);
        }
        word[5] = '\0';
        words[count++] = word;
    }
    qsort(words, (size_t)count, sizeof *words, by_text);
    for (int k = 0; k < count; k++) {
        printf("%s%c", words[k], k % 10 == 9 ? '\n' : ' ');
    }
    char *key = words[17];
    char **found = bsearch(&key, words, (size_t)count, sizeof *words, by_text);
    printf("found at %d\n", (int)(found - words));
    for (int k = 0; k < count; k++) {
        free(words[k]);
    }
    free(words);

    char *large = malloc(50000);
    memset(large, 'x', 50000);
    large = realloc(large, 60000);
    printf("%c%c\n", large[0], large[49999]);
    free(large);
    char *none = malloc(1ul << 40);
    printf("%s\n", none == NULL ? "no terabyte" : "a terabyte");
    return 0;
}
