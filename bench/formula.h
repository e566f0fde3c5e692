/* The formulas of `judge bench` on the standard input, one to a line:
   NAME BUDGET COUNT W.. */
#ifndef FORMULA_H
#define FORMULA_H

#include <inttypes.h>
#include <stddef.h>
#include <stdio.h>

/* The most that a block has are 6 + 1,024 + 4,096 + 8,192 words, and a record 1,024
   entries. */
enum { PLACES = 1024, CLAUSES = 4096, LITERALS = 8192, BLOCK = 6 + PLACES + CLAUSES + LITERALS };

struct formula {
    char name[64];
    uint32_t budget;
    size_t length;
    int32_t block[BLOCK];
};

static int read_formula(struct formula *f)
{
    if (scanf("%63s %" SCNu32 " %zu", f->name, &f->budget, &f->length) != 3)
        return 0;
    if (f->length > BLOCK)
        return 0;
    for (size_t i = 0; i < f->length; i++)
        if (scanf("%" SCNd32, &f->block[i]) != 1)
            return 0;
    return 1;
}

#endif
