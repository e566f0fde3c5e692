/* Reads the text of the standard input with the proved reader and with the plain
   one, into an output that has room for the largest block, and checks that
   answers and outputs agree.

   The line of output is BYTES STATUS, then the best time of each side in
   microseconds. Before and after each first reading it calls getppid, which
   bench/count.c waits for; the word `once` asks for these readings alone. */
#define _POSIX_C_SOURCE 200809L
#include <inttypes.h>
#include <stdio.h>
#include <string.h>
#include <unistd.h>

#include "clock.h"
#include "mokihazureo.h"

enum { REPEATS = 200, MOST = 1 << 20, BLOCK = 6 + 1024 + 4096 + 8192 };

/* bench/door.rs: the plain reader, with the same answer. */
uint32_t yardstick_read(const uint8_t *bytes, size_t bytes_length, int32_t *output, size_t output_length, uint64_t answer[1]);

typedef uint32_t (*reader)(const uint8_t *, size_t, int32_t *, size_t, uint64_t *);

static uint8_t text[MOST];
static size_t length;

/* A reading, and all that it leaves. */
struct outcome {
    uint32_t status;
    uint64_t answer[1];
    int32_t output[BLOCK];
};

static void take(reader read_text, struct outcome *to)
{
    to->status = read_text(text, length, to->output, BLOCK, to->answer);
}

static void take_counted(reader read_text, struct outcome *to)
{
    memset(to, 0xa5, sizeof *to);
    getppid();
    take(read_text, to);
    getppid();
}

static double microseconds(reader read_text, struct outcome *to)
{
    double start = now();
    take(read_text, to);
    return now() - start;
}

/* The best of some readings, the sides by turns. */
static void measure(double best[2])
{
    static struct outcome unread;
    const reader sides[2] = {moki_read, yardstick_read};
    for (int repeat = 0; repeat < REPEATS; repeat++) {
        for (int side = 0; side < 2; side++) {
            double took = microseconds(sides[side], &unread);
            if (repeat == 0 || took < best[side])
                best[side] = took;
        }
    }
}

static int agree(const struct outcome *a, const struct outcome *b)
{
    return a->status == b->status
        && a->answer[0] == b->answer[0]
        && memcmp(a->output, b->output, sizeof a->output) == 0;
}

int main(int argc, char **argv)
{
    static struct outcome proved, plain;
    double best[2] = {0, 0};
    length = fread(text, 1, MOST, stdin);
    take_counted(moki_read, &proved);
    take_counted(yardstick_read, &plain);
    if (!agree(&proved, &plain)) {
        fprintf(stderr, "read: the two sides differ\n");
        return 1;
    }
    if (argc < 2 || strcmp(argv[1], "once") != 0)
        measure(best);
    printf("%zu %" PRIu32 " %.1f %.1f\n", length, proved.status, best[0], best[1]);
    return 0;
}
