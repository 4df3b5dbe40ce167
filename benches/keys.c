/* Prints the nanoseconds that bindings/c/bench.c and peers.c need to make a key.
 * usage: keys N */
#include <stdio.h>
#include <stdlib.h>
#include <time.h>

int main(int count, char **words)
{
    unsigned keys = count == 2 ? (unsigned)strtoul(words[1], NULL, 10) : 0, sum = 0;
    struct timespec start, end;
    clock_gettime(CLOCK_MONOTONIC, &start);
    for (unsigned i = 0; i < keys; i++) {
        char key[17];
        snprintf(key, sizeof key, "key%013u", (unsigned)(i * 2654435761u));
        sum += (unsigned char)key[15];
    }
    clock_gettime(CLOCK_MONOTONIC, &end);
    double took = (double)(end.tv_sec - start.tv_sec) * 1e9 + (double)(end.tv_nsec - start.tv_nsec);
    printf("%.1f %u\n", keys ? took / keys : 0, sum);
    return 0;
}
