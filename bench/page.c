/* Lists every opening of case G's shape widened to a first group of 16 variables
   (docs/bench.md): prefix 1 to 16, -17, 18, clauses {1, .., 16}, {-17, 18} and
   {17, -18}. All openings win but 0. Before and after the listing it calls getppid,
   which bench/count.c waits for, and at the end it prints the count of openings. */
#define _POSIX_C_SOURCE 200809L
#include <stdio.h>
#include <stdlib.h>
#include <unistd.h>

#include "mokihazureo.h"

enum { K = 16, V = K + 2, OPENINGS = 1 << K, ROOM = 8192, BUDGET = 100 };

static int32_t block[6 + V + 3 + K + 4] = {V, 3, K + 4, 6, 6 + V, 6 + V + 3};
static int32_t lits[V];
static uint8_t kinds[V];
static uint32_t output[ROOM];

static void fill_block(void)
{
    const int32_t rest[] = {-(K + 1), K + 2, K, K + 2, K + 4};
    const int32_t copies[] = {-(K + 1), K + 2, K + 1, -(K + 2)};
    int32_t *to = block + 6;
    for (int32_t v = 1; v <= K; v++)
        *to++ = v;
    for (size_t i = 0; i < sizeof rest / sizeof *rest; i++)
        *to++ = rest[i];
    for (int32_t v = 1; v <= K; v++)
        *to++ = v;
    for (size_t i = 0; i < sizeof copies / sizeof *copies; i++)
        *to++ = copies[i];
}

/* How many openings win, page by page. */
static uint64_t list(void)
{
    uint64_t answer[MOKI_PAGE_WORDS] = {0, 0, 0};
    uint64_t winners = 0;
    while (answer[0] < OPENINGS) {
        if (moki_page(block, sizeof block / sizeof *block, lits, V, kinds, V, (uint32_t)answer[0], block, 0, BUDGET, output, ROOM, answer) != 0 || answer[2] != 0)
            return 0;
        winners += answer[1];
    }
    return winners;
}

int main(void)
{
    fill_block();
    getppid();
    uint64_t winners = list();
    getppid();
    if (winners != OPENINGS - 1) {
        fprintf(stderr, "page: %d openings have to win, not %llu\n", OPENINGS - 1, (unsigned long long)winners);
        return 1;
    }
    printf("%d\n", OPENINGS);
    return 0;
}
