/* The least that a program which passes messages can do, started as the program is: messages --arena N takes and clears a memory of
   N words, reads its input in large pieces, looks at no byte of a line but the one by which `1 send` differs from `2 recv`, copies
   the 200 words of a list of 100 integers for each `send` to the next words of the memory, and writes one reply a line with one
   call each. */
#include <stdint.h>
#include <stdlib.h>
#include <string.h>
#include <unistd.h>

#define WORDS 200

static char buffer[1 << 16];

int main(int argc, char **argv) {
    size_t words = argc == 3 ? (size_t)atol(argv[2]) : 0;
    uint64_t *memory = words >= 2 * WORDS ? malloc(words * sizeof *memory) : NULL;
    if (memory == NULL) {
        return 1;
    }
    memset(memory, 0, words * sizeof *memory);
    size_t next = WORDS, held = 0;
    ssize_t got;
    while ((got = read(0, buffer + held, sizeof buffer - held)) > 0) {
        char *at = buffer;
        char *end = buffer + held + got;
        char *stop;
        while ((stop = memchr(at, '\n', (size_t)(end - at))) != NULL) {
            if (stop - at > 2 && at[2] == 's') {
                if (next + WORDS > words) {
                    next = WORDS;
                }
                memcpy(memory + next, memory, WORDS * sizeof *memory);
                next += WORDS;
            }
            if (write(1, "ok\n", 3) != 3) {
                return 3;
            }
            at = stop + 1;
        }
        held = (size_t)(end - at);
        memmove(buffer, at, held);
    }
    return got == 0 ? 0 : 2;
}
