/* The least that a program which answers each line can do: it reads its input in large pieces, looks
   at no byte but the line ends, and writes one reply a line with one call each. */
#include <string.h>
#include <unistd.h>

static char buffer[1 << 16];

int main(void) {
    ssize_t got;
    while ((got = read(0, buffer, sizeof buffer)) > 0) {
        const char *at = buffer;
        const char *end = buffer + got;
        while ((at = memchr(at, '\n', (size_t)(end - at))) != NULL) {
            if (write(1, "ok\n", 3) != 3) {
                return 3;
            }
            at++;
        }
    }
    return got == 0 ? 0 : 2;
}
