/* A second opinion on formulas of 20 and of 24 variables that need all of their
   2^V leaves (docs/bench.md): every variable is existential, and the last one has to
   be true and false. Before and after each it calls getppid, which bench/count.c
   waits for. A line of output is V, the leaves, and the time in microseconds. */
#define _POSIX_C_SOURCE 200809L
#include <stdio.h>
#include <unistd.h>

#include "clock.h"
#include "mokihazureo.h"

enum { MOST = 24, WORDS = 6 + MOST + 4 };

/* The block's length. */
static size_t fill_block(int32_t block[WORDS], int32_t v)
{
    const int32_t header[] = {v, 2, 2, 6, 6 + v, 8 + v};
    const int32_t rest[] = {1, 2, v, -v};
    size_t length = 0;
    for (size_t i = 0; i < sizeof header / sizeof *header; i++)
        block[length++] = header[i];
    for (int32_t word = 1; word <= v; word++)
        block[length++] = word;
    for (size_t i = 0; i < sizeof rest / sizeof *rest; i++)
        block[length++] = rest[i];
    return length;
}

int main(void)
{
    const int32_t sizes[] = {20, MOST};
    for (size_t i = 0; i < sizeof sizes / sizeof *sizes; i++) {
        int32_t block[WORDS];
        uint64_t answer[MOKI_PLAIN_WORDS] = {0};
        size_t length = fill_block(block, sizes[i]);
        double start = now();
        getppid();
        uint32_t refused = moki_plain(block, length, answer);
        getppid();
        double took = now() - start;
        if (refused != 0 || answer[0] != MOKI_UNSAT) {
            fprintf(stderr, "plain: %d variables have to be Unsat\n", sizes[i]);
            return 1;
        }
        printf("%d %ld %.0f\n", sizes[i], 1L << sizes[i], took);
    }
    return 0;
}
