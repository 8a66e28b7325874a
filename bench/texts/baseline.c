/* Counts the LFs of standard input with memchr, in pieces of 65,536 bytes. */
#include <stdio.h>
#include <string.h>
#include <unistd.h>

int main(void) {
    static char piece[65536];
    unsigned long count = 0;
    ssize_t n;
    while ((n = read(0, piece, sizeof piece)) > 0) {
        const char *end = piece + n;
        for (const char *at = piece; (at = memchr(at, '\n', end - at)) != NULL; at++)
            count++;
    }
    printf("%lu\n", count);
    return 0;
}
