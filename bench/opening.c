/* The same memory as an arena by the C library: opening WORDS HOW, where HOW is 0: no memory at all, 1: words that are all 0 as the
   system gives them, and none is touched, 2: the same, and one word of each page is written, 3: words as they come, and each is made
   0 by `memset`. */
#include <stdint.h>
#include <stdlib.h>
#include <string.h>

int main(int argc, char **argv) {
    size_t words = argc > 2 ? strtoul(argv[1], NULL, 10) : 0;
    int how = argc > 2 ? atoi(argv[2]) : 0;
    volatile uint64_t *row;
    if (how == 0) {
        return 0;
    }
    row = how == 3 ? malloc(words * 8) : calloc(words, 8);
    /* Without this the compiler may make one `calloc` of `malloc` and `memset`. */
    __asm__ volatile("" : "+r"(row));
    if (row == NULL) {
        return 1;
    }
    if (how == 2) {
        for (size_t i = 0; i < words; i += 512) {
            row[i] = 1;
        }
    }
    if (how == 3) {
        memset((void *)row, 0, words * 8);
    }
    return row[words / 2] > 1;
}
