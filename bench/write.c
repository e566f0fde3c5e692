/* Reads the text of the standard input, and writes its block with the proved
   writer and with the plain one. It checks that answers and outputs agree, and that
   what is written is the text.

   The line of output is BYTES STATUS, then the best time of each side in
   microseconds. Before and after each first writing it calls getppid, which
   bench/count.c waits for; the word `once` asks for these writings alone. */
#define _POSIX_C_SOURCE 200809L
#include <inttypes.h>
#include <stdio.h>
#include <string.h>
#include <unistd.h>

#include "clock.h"
#include "mokihazureo.h"

enum { REPEATS = 200, MOST = 1 << 16, BLOCK = 6 + 1024 + 4096 + 8192 };

/* bench/door.rs: the plain writer, with the same answer. */
uint32_t yardstick_write(const int32_t *block, size_t block_length, uint8_t *output, size_t output_length, uint64_t answer[MOKI_WRITE_WORDS]);

typedef uint32_t (*writer)(const int32_t *, size_t, uint8_t *, size_t, uint64_t *);

static uint8_t text[MOST];
static int32_t block[BLOCK];
static uint64_t length;

/* A writing, and all that it leaves. */
struct outcome {
    uint32_t status;
    uint64_t answer[MOKI_WRITE_WORDS];
    uint8_t output[MOST];
};

static void take(writer write_text, struct outcome *to)
{
    to->status = write_text(block, length, to->output, MOST, to->answer);
}

static void take_counted(writer write_text, struct outcome *to)
{
    memset(to, 0xa5, sizeof *to);
    getppid();
    take(write_text, to);
    getppid();
}

static double microseconds(writer write_text, struct outcome *to)
{
    double start = now();
    take(write_text, to);
    return now() - start;
}

/* The best of some writings, the sides by turns. */
static void measure(double best[2])
{
    static struct outcome unread;
    const writer sides[2] = {moki_write, yardstick_write};
    for (int repeat = 0; repeat < REPEATS; repeat++) {
        for (int side = 0; side < 2; side++) {
            double took = microseconds(sides[side], &unread);
            if (repeat == 0 || took < best[side])
                best[side] = took;
        }
    }
}

static int agree(const struct outcome *a, const struct outcome *b)
{
    return a->status == b->status
        && a->answer[0] == b->answer[0]
        && memcmp(a->output, b->output, sizeof a->output) == 0;
}

int main(int argc, char **argv)
{
    static struct outcome proved, plain;
    double best[2] = {0, 0};
    size_t bytes = fread(text, 1, MOST, stdin);
    if (moki_read(text, bytes, block, BLOCK, &length) != 0) {
        fprintf(stderr, "write: the text was not read\n");
        return 1;
    }
    take_counted(moki_write, &proved);
    take_counted(yardstick_write, &plain);
    if (!agree(&proved, &plain) || proved.answer[0] != bytes || memcmp(proved.output, text, bytes) != 0) {
        fprintf(stderr, "write: the two sides differ, or it is not the text\n");
        return 1;
    }
    if (argc < 2 || strcmp(argv[1], "once") != 0)
        measure(best);
    printf("%zu %" PRIu32 " %.1f %.1f\n", bytes, proved.status, best[0], best[1]);
    return 0;
}
