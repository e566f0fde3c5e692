/* How much stack a call of the library takes. Each call is made in a thread whose
   stack is filled with a pattern first; afterwards the lowest word that has lost it
   is looked for, and counted from the frame that made the call.

   The input is as bench/formula.h says. On each formula a check, an opening, some
   steps, a run, a counted run and a page are made; its text is read whole, and as one piece, and
   the block written as a text; and for each kind of call the most bytes are
   printed. The word BYTES, if given, is the size of the thread's stack, of which
   the system keeps some for itself; under it is a page that nobody may touch, so
   that a call which asks for more ends the program. */
#define _GNU_SOURCE
#include <pthread.h>
#include <stdlib.h>
#include <string.h>
#include <sys/mman.h>

#include "formula.h"
#include "mokihazureo.h"

enum { GUARD = 4096, STEPS = 40, BUDGET = 2000, ROOM = 64 };

static const uint64_t pattern = 0xa5c3965a3c69f00d;

enum call { CHECK, OPEN, STEP, RUN, COUNTED, PAGE, READ, BEGIN, PIECE, END, WRITE, CALLS };

static const char *const names[CALLS] = {"check", "open", "step", "run", "counted", "page", "read", "begin", "piece", "end", "write"};

/* What the calls are made on. */
static struct formula formula;
static int32_t lits[PLACES];
static uint8_t kinds[PLACES];
static uint32_t reasons[PLACES];
static uint32_t trues[CLAUSES], opens[CLAUSES], index_words[PLACES + LITERALS];
static uint32_t output[ROOM];
static uint64_t session[MOKI_RUN_WORDS];

/* The formula's text: no word of the block takes more than nine bytes of it. */
static char text[16 * BLOCK];
static size_t bytes;
static int32_t block_read[BLOCK];
static uint8_t written[16 * BLOCK];
static uint64_t reader[MOKI_READER_WORDS];

static void put(const char *form, int32_t word)
{
    bytes += (size_t)sprintf(text + bytes, form, word);
}

/* Each variable has a quantifier's line of its own. */
static void spell(void)
{
    const int32_t *prefix = formula.block + 6;
    const int32_t *ends = prefix + formula.block[0];
    const int32_t *word = ends + formula.block[1];
    const int32_t *literals = word;
    bytes = 0;
    put("p cnf %" PRId32, formula.block[0]);
    put(" %" PRId32 "\n", formula.block[1]);
    for (; prefix < ends; prefix++)
        put(*prefix < 0 ? "a %" PRId32 " 0\n" : "e %" PRId32 " 0\n", abs(*prefix));
    for (; ends < literals; ends++) {
        for (; word < literals + *ends; word++)
            put("%" PRId32 " ", *word);
        put("%" PRId32 "\n", 0);
    }
}

static uint32_t make(enum call call)
{
    const int32_t *block = formula.block;
    size_t length = formula.length;
    const uint8_t *spelled = (const uint8_t *)text;
    uint64_t page[MOKI_PAGE_WORDS];
    switch (call) {
    case CHECK:
        return moki_check(block, length);
    case OPEN:
        return moki_open(block, length, lits, PLACES, kinds, PLACES, reasons, PLACES, 0, session);
    case STEP:
        return moki_step(session[0], session[1], (uint32_t)session[2], block, length, lits, PLACES, kinds, PLACES, reasons, PLACES, session[1], 0, session);
    case RUN:
        return moki_run(session[0], session[1], (uint32_t)session[2], block, length, lits, PLACES, kinds, PLACES, reasons, PLACES, session[1], BUDGET, block, 6, session);
    case COUNTED:
        return moki_counted(0, session[1], MOKI_OPEN, block, length, lits, PLACES, kinds, PLACES, reasons, PLACES, trues, CLAUSES, opens, CLAUSES, index_words, PLACES + LITERALS, session[1], BUDGET, block, 6, session);
    case READ:
        return moki_read(spelled, bytes, block_read, BLOCK, page);
    case BEGIN:
        moki_read_begin(reader);
        return 0;
    case PIECE:
        moki_read_piece(reader, spelled, bytes, block_read, BLOCK);
        return 0;
    case END:
        return moki_read_end(reader, block_read, BLOCK, page);
    case WRITE:
        return moki_write(block, length, written, sizeof written, page);
    default:
        return moki_page(block, length, lits, PLACES, kinds, PLACES, 0, block, 6, BUDGET, output, ROOM, page);
    }
}

/* A call, its number, and the frame that it was made from. */
struct made {
    enum call call;
    uint32_t number;
    const char *frame;
};

static void *in_thread(void *given)
{
    struct made *made = given;
    made->frame = __builtin_frame_address(0);
    made->number = make(made->call);
    return NULL;
}

static void stop(const char *why)
{
    fprintf(stderr, "stack: %s\n", why);
    exit(1);
}

/* The stack: its lowest byte, which is over the guard, and its size. */
static char *stack;
static size_t size;

static void take_stack(void)
{
    char *memory = mmap(NULL, GUARD + size, PROT_READ | PROT_WRITE, MAP_PRIVATE | MAP_ANONYMOUS, -1, 0);
    if (memory == MAP_FAILED || mprotect(memory, GUARD, PROT_NONE) != 0)
        stop("no memory for a stack");
    stack = memory + GUARD;
}

static void paint(void)
{
    for (size_t place = 0; place < size; place += sizeof pattern)
        memcpy(stack + place, &pattern, sizeof pattern);
}

static const char *lowest_touched(void)
{
    size_t place = 0;
    while (place < size && memcmp(stack + place, &pattern, sizeof pattern) == 0)
        place += sizeof pattern;
    return stack + place;
}

/* The bytes that the call took, and its number. */
static size_t taken(enum call call, uint32_t *number)
{
    struct made made = {call, 0, NULL};
    pthread_attr_t attributes;
    pthread_t thread;
    paint();
    pthread_attr_init(&attributes);
    if (pthread_attr_setstack(&attributes, stack, size) != 0 || pthread_create(&thread, &attributes, in_thread, &made) != 0)
        stop("no thread can be had with such a stack");
    pthread_join(thread, NULL);
    pthread_attr_destroy(&attributes);
    *number = made.number;
    return (size_t)(made.frame - lowest_touched());
}

/* The most that each call took, and where; how often it was accepted. */
static struct {
    size_t bytes;
    char name[sizeof formula.name];
    unsigned accepted;
} most[CALLS];

static void try(enum call call)
{
    uint32_t number;
    size_t bytes = taken(call, &number);
    most[call].accepted += number == 0;
    if (bytes > most[call].bytes) {
        most[call].bytes = bytes;
        strcpy(most[call].name, formula.name);
    }
}

int main(int argc, char **argv)
{
    size = argc > 1 ? strtoul(argv[1], NULL, 10) / GUARD * GUARD : 1 << 20;
    take_stack();
    while (read_formula(&formula)) {
        try(CHECK);
        try(OPEN);
        for (int step = 0; step < STEPS; step++)
            try(STEP);
        try(RUN);
        try(COUNTED);
        try(PAGE);
        spell();
        for (enum call call = READ; call < CALLS; call++)
            try(call);
    }
    for (enum call call = 0; call < CALLS; call++)
        printf("%-7s %6zu bytes at most, on %s; accepted %u times\n", names[call], most[call].bytes, most[call].name, most[call].accepted);
    return 0;
}
