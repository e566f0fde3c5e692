/* Runs each formula of the standard input on the proved solver, by a plain run and
   by a counted one, and on the yardstick, with the same budget. It checks that all
   three agree, and that the counted run's numbers are those of the record it leaves.

   The input is as bench/formula.h says, a line of output is
   NAME STATE STEPS LENGTH, then the best time of each side in microseconds.
   Before and after each first run it calls getppid, which bench/count.c waits
   for; the word `once` asks for these runs alone. */
#define _POSIX_C_SOURCE 200809L
#include <inttypes.h>
#include <stdio.h>
#include <stdlib.h>
#include <string.h>
#include <unistd.h>

#include "clock.h"
#include "formula.h"
#include "mokihazureo.h"

/* How often a run is timed: a short one, of a tiny formula, more often. */
enum { REPEATS = 5, TINY = 1000, TINY_REPEATS = 200 };

/* bench/door.rs: the yardstick, with the same answer. */
uint32_t yardstick_run(uint64_t length, uint64_t revision, uint32_t state, const int32_t *block, size_t block_length, int32_t *lits, size_t lits_length, uint8_t *kinds, size_t kinds_length, uint32_t *reasons, size_t reasons_length, uint64_t seen, uint32_t budget, const int32_t *preferred, size_t preferred_length, uint64_t answer[MOKI_RUN_WORDS]);

/* A run, and all that it leaves. */
struct outcome {
    uint32_t refusal;
    uint64_t answer[MOKI_RUN_WORDS];
    int32_t lits[PLACES];
    uint8_t kinds[PLACES];
    uint32_t reasons[PLACES];
};

/* What a counted run is lent besides. */
static uint32_t trues[CLAUSES], opens[CLAUSES], index_words[PLACES + LITERALS];

static const int32_t none[1];

enum side { PLAIN, COUNTED, YARDSTICK, SIDES };

static uint32_t solve(enum side side, const struct formula *f, struct outcome *to)
{
    switch (side) {
    case PLAIN:
        return moki_run(0, 0, MOKI_OPEN, f->block, f->length, to->lits, PLACES, to->kinds, PLACES, to->reasons, PLACES, 0, f->budget, none, 0, to->answer);
    case COUNTED:
        return moki_counted(0, 0, MOKI_OPEN, f->block, f->length, to->lits, PLACES, to->kinds, PLACES, to->reasons, PLACES, trues, CLAUSES, opens, CLAUSES, index_words, PLACES + LITERALS, 0, f->budget, none, 0, to->answer);
    default:
        return yardstick_run(0, 0, MOKI_OPEN, f->block, f->length, to->lits, PLACES, to->kinds, PLACES, to->reasons, PLACES, 0, f->budget, none, 0, to->answer);
    }
}

static void run_marked(enum side side, const struct formula *f, struct outcome *to)
{
    memset(to, 0, sizeof *to);
    getppid();
    to->refusal = solve(side, f, to);
    getppid();
}

static double microseconds(enum side side, const struct formula *f, struct outcome *to)
{
    memset(to, 0, sizeof *to);
    double start = now();
    to->refusal = solve(side, f, to);
    return now() - start;
}

/* The best of some runs, the sides by turns. */
static void measure(const struct formula *f, double best[SIDES])
{
    static struct outcome unread;
    int repeats = f->length < TINY ? TINY_REPEATS : REPEATS;
    for (int repeat = 0; repeat < repeats; repeat++) {
        for (enum side side = 0; side < SIDES; side++) {
            double took = microseconds(side, f, &unread);
            if (repeat == 0 || took < best[side])
                best[side] = took;
        }
    }
}

static int agree(const struct outcome *a, const struct outcome *b)
{
    return a->refusal == b->refusal
        && memcmp(a->answer, b->answer, sizeof a->answer) == 0
        && memcmp(a->lits, b->lits, sizeof a->lits) == 0
        && memcmp(a->kinds, b->kinds, sizeof a->kinds) == 0
        && memcmp(a->reasons, b->reasons, sizeof a->reasons) == 0;
}

/* Whether the numbers are the count of each clause under the record. */
static int numbers_are_fresh(const struct formula *f, const struct outcome *left)
{
    /* By variable: its value, 0 for none, and whether it is existential. */
    static int32_t value[PLACES + 1], existential[PLACES + 1];
    const int32_t *prefix = f->block + 6, *ends = prefix + f->block[0], *words = ends + f->block[1];
    memset(value, 0, sizeof value);
    for (uint64_t place = 0; place < left->answer[0]; place++)
        value[abs(left->lits[place])] = left->lits[place];
    for (int32_t place = 0; place < f->block[0]; place++)
        existential[abs(prefix[place])] = prefix[place] > 0;
    for (int32_t clause = 0, at = 0; clause < f->block[1]; clause++) {
        uint32_t are_true = 0, are_open = 0;
        for (; at < ends[clause]; at++) {
            int32_t variable = abs(words[at]);
            are_true += value[variable] == words[at];
            are_open += value[variable] == 0 && existential[variable];
        }
        if (trues[clause] != are_true || opens[clause] != are_open)
            return 0;
    }
    return 1;
}

int main(int argc, char **argv)
{
    static struct formula f;
    static struct outcome outcomes[SIDES];
    int once = argc > 1 && strcmp(argv[1], "once") == 0;
    int different = 0;
    while (read_formula(&f)) {
        const struct outcome *plain = &outcomes[PLAIN];
        double best[SIDES] = {0, 0, 0};
        for (enum side side = 0; side < SIDES; side++)
            run_marked(side, &f, &outcomes[side]);
        if (plain->refusal != 0 || !agree(plain, &outcomes[COUNTED]) || !agree(plain, &outcomes[YARDSTICK]) || !numbers_are_fresh(&f, plain)) {
            different++;
            fprintf(stderr, "bench: the sides differ on %s\n", f.name);
        }
        if (!once)
            measure(&f, best);
        printf("%s %" PRIu64 " %" PRIu64 " %" PRIu64 " %.1f %.1f %.1f\n", f.name, plain->answer[2], plain->answer[3], plain->answer[0], best[PLAIN], best[COUNTED], best[YARDSTICK]);
    }
    return different != 0;
}
