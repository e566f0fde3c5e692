/* A text read whole and in pieces, and written; two administrators at one session, the reasons of
   its steps, a counted run, a second opinion, a listing page by page, and what happens to bad input. */
#include <stdio.h>
#include <string.h>

#include "mokihazureo.h"

#define COUNT(list) (sizeof(list) / sizeof(list)[0])

static int failures;

static void expect(const char *what, int holds)
{
    printf("%s: %s\n", what, holds ? "yes" : "NO");
    failures += !holds;
}

/* Case A of docs/SPEC.md: a is 1, d is 2 (universal), b is 3, c is 4. */
static const int32_t block[] = {4, 5, 13, 6, 10, 15, 1, -2, 3, 4, 3, 5, 7, 10, 13, -1, -2, 3, -2, -3, 3, 4, 1, -2, -4, 2, 3, -4};

/* Its text. */
static const char text[] = "c case A\np cnf 4 5\ne 1 0\na 2 0\ne 3 4 0\n-1 -2 3 0\n-2 -3 0\n3 4 0\n1 -2 -4 0\n2 3 -4 0\n";

static uint32_t read_text(const char *given, int32_t *output, size_t words, uint64_t *answer)
{
    return moki_read((const uint8_t *)given, strlen(given), output, words, answer);
}

/* The text in pieces of so many bytes. */
static uint32_t read_in_pieces(size_t bytes, int32_t *output, size_t words, uint64_t *answer)
{
    uint64_t reader[MOKI_READER_WORDS];
    size_t length = strlen(text);

    moki_read_begin(reader);
    for (size_t at = 0; at < length; at += bytes)
        moki_read_piece(reader, (const uint8_t *)text + at, length - at < bytes ? length - at : bytes, output, words);
    return moki_read_end(reader, output, words, answer);
}

static void a_text(void)
{
    static const int32_t zeros[COUNT(block) + 2];
    int32_t output[COUNT(block) + 2];
    int32_t pieced[COUNT(block) + 2];
    uint64_t reader[MOKI_READER_WORDS];
    uint64_t answer[MOKI_READ_WORDS] = {7};
    int right = 1;

    memset(output, 7, sizeof output);
    expect("case A's text is read", read_text(text, output, COUNT(output), answer) == 0 && answer[0] == COUNT(block));
    expect("its block is case A's, and zeros follow", memcmp(output, block, sizeof block) == 0 && output[COUNT(block)] == 0 && output[COUNT(block) + 1] == 0);
    for (size_t bytes = 1; bytes < sizeof text; bytes++) {
        memset(pieced, 9, sizeof pieced);
        answer[0] = 7;
        right &= read_in_pieces(bytes, pieced, COUNT(pieced), answer) == 0 && answer[0] == COUNT(block) && memcmp(pieced, output, sizeof output) == 0;
    }
    expect("in pieces of any length it is the same", right);

    expect("a carriage return is refused with 27 at its place", read_text("p cnf 0 0\r\n", output, COUNT(output), answer) == 27 && answer[0] == 9);
    expect("and the output is wiped", memcmp(output, zeros, sizeof output) == 0);
    expect("so is a last line that doesn't end, with the text's length", read_text("p cnf 0 0", output, COUNT(output), answer) == 27 && answer[0] == 9);
    expect("a clause too many is refused with 28, and the answer is 0", read_text("p cnf 1 0\n1 0\n", output, COUNT(output), answer) == 28 && answer[0] == 0);
    expect("a variable too many with 29", read_text("p cnf 1025 0\n", output, COUNT(output), answer) == 29 && answer[0] == 0);
    expect("a short output with 30", read_text(text, output, COUNT(block) - 1, answer) == 30 && answer[0] == 0);
    expect("a universal last group with 31, for row 7", read_text("p cnf 1 0\na 1 0\n", output, COUNT(output), answer) == 31 && answer[0] == 7);

    memset(reader, 255, sizeof reader);
    moki_read_piece(reader, (const uint8_t *)text, sizeof text - 1, output, COUNT(output));
    expect("a reader of other words is no text's", moki_read_end(reader, output, COUNT(output), answer) == 27 && memcmp(output, zeros, sizeof output) == 0);
    memset(reader, 0, sizeof reader);
    moki_read_piece(reader, (const uint8_t *)text, sizeof text - 1, output, COUNT(output));
    expect("nor is one that was never begun with", moki_read_end(reader, output, COUNT(output), answer) == 27 && answer[0] == 0);
}

/* Case A's text without its comment line. */
static void a_written_text(void)
{
    const char *wanted = strchr(text, '\n') + 1;
    size_t length = strlen(wanted);
    uint8_t output[sizeof text];
    uint8_t before[sizeof text];
    int32_t back[COUNT(block)];
    uint64_t answer[MOKI_WRITE_WORDS] = {7};

    memset(output, 7, sizeof output);
    memset(before, 7, sizeof before);
    expect("a byte too few is refused with 30", moki_write(block, COUNT(block), output, length - 1, answer) == 30);
    expect("a wrong block with its row, whatever the room", moki_write(block, 5, output, 0, answer) == 1);
    expect("and nothing is written", memcmp(output, before, sizeof output) == 0 && answer[0] == 7);
    expect("case A's block is written", moki_write(block, COUNT(block), output, length, answer) == 0 && answer[0] == length);
    expect("it is case A's text", memcmp(output, wanted, length) == 0);
    expect("what is behind it stays", memcmp(output + length, before, sizeof output - length) == 0);
    expect("and it is read back", moki_read(output, length, back, COUNT(back), answer) == 0 && memcmp(back, block, sizeof block) == 0);
}

static void two_administrators(void)
{
    int32_t lits[4];
    uint8_t kinds[4];
    uint32_t reasons[5] = {9, 9, 9, 9, 9};
    uint64_t session[MOKI_RUN_WORDS] = {7, 7, 7, 7, 7};

    expect("the block is accepted", moki_check(block, COUNT(block)) == 0);
    expect("a session is opened", moki_open(block, COUNT(block), lits, 4, kinds, 4, reasons, 5, 0, session) == 0);
    expect("it is empty, at revision 0, open", session[0] == 0 && session[1] == 0 && session[2] == MOKI_OPEN);
    expect("and has no fourth number", session[3] == 7);

    expect("Ada puts 1 to true, as seen at revision 0", moki_step(session[0], session[1], (uint32_t)session[2], block, COUNT(block), lits, 4, kinds, 4, reasons, 5, 0, 1, session) == 0);
    expect("the record has it", session[0] == 1 && session[1] == 1 && lits[0] == 1 && kinds[0] == 1);
    expect("a decision has no reason", session[3] == 0 && reasons[0] == 0);
    expect("and there is no fifth number", session[4] == 7);

    expect("Ben's move from revision 0 is refused with 14", moki_step(session[0], session[1], (uint32_t)session[2], block, COUNT(block), lits, 4, kinds, 4, reasons, 5, 0, -1, session) == 14);
    expect("in words: seen at another revision", strcmp(moki_refusal_text(14), "seen at another revision") == 0);
    expect("nothing is changed", session[0] == 1 && session[1] == 1 && lits[0] == 1 && lits[1] == 0);

    expect("he goes on from revision 1", moki_step(session[0], session[1], (uint32_t)session[2], block, COUNT(block), lits, 4, kinds, 4, reasons, 5, 1, -2, session) == 0);
    expect("a run with preferences", moki_run(session[0], session[1], (uint32_t)session[2], block, COUNT(block), lits, 4, kinds, 4, reasons, 5, 2, 100, (const int32_t[]){3, INT32_MIN}, 2, session) == 0);
    expect("the formula is false", session[2] == MOKI_UNSAT);
    expect("as the fourth clause, which is clause 3, can't be met", session[4] == 3 + 1);
    expect("the second clause forced -3, and the third 4", memcmp(lits, (int32_t[]){-1, 2, -3, 4}, sizeof lits) == 0 && memcmp(reasons, (uint32_t[]){0, 0, 2, 3, 9}, sizeof reasons) == 0);
    expect("the revision counts the steps", session[1] == 2 + session[3]);
    expect("an ended session is refused with 13", moki_step(session[0], session[1], (uint32_t)session[2], block, COUNT(block), lits, 4, kinds, 4, reasons, 5, session[1], 0, session) == 13);
}

/* Case G of docs/SPEC.md: the openings are of the variables 1 and 2. */
static const int32_t openings[] = {4, 3, 6, 6, 10, 13, 1, 2, -3, 4, 2, 4, 6, 1, 2, -3, 4, 3, -4};

/* The listing's work record. */
static int32_t work_lits[4] = {9, 9, 9, 9};
static uint8_t work_kinds[4] = {9, 9, 9, 9};

static uint32_t page(uint32_t start, uint32_t budget, uint32_t *output, size_t words, uint64_t *answer)
{
    return moki_page(openings, COUNT(openings), work_lits, 4, work_kinds, 4, start, block, 0, budget, output, words, answer);
}

static int holds(const uint32_t *output, const uint32_t *words)
{
    return memcmp(output, words, 8 * sizeof *words) == 0;
}

static int answers(const uint64_t *answer, uint64_t next, uint64_t entries, uint64_t paused)
{
    return answer[0] == next && answer[1] == entries && answer[2] == paused;
}

static void a_listing(void)
{
    uint32_t output[8] = {7, 7, 7, 7, 7, 7, 7, 7};
    uint32_t whole[8] = {7, 7, 7, 7, 7, 7, 7, 7};
    uint64_t answer[MOKI_PAGE_WORDS] = {7, 7, 7};

    expect("case H: with no budget nothing is written", page(0, 0, output, 8, answer) == 0 && holds(output, (uint32_t[]){7, 7, 7, 7, 7, 7, 7, 7}));
    expect("and the page is paused at 0", answers(answer, 0, 0, 1));
    expect("at the end there is nothing to pause for", page(4, 0, output, 8, answer) == 0 && answers(answer, 4, 0, 0));
    expect("case G: four words of room hold 1 and 2", page(0, 100, output, 4, answer) == 0 && holds(output, (uint32_t[]){1, 1, 2, 1, 7, 7, 7, 7}));
    expect("and the next page begins at 3", answers(answer, 3, 2, 0));
    expect("it holds 3", page((uint32_t)answer[0], 100, output + 4, 4, answer) == 0 && holds(output, (uint32_t[]){1, 1, 2, 1, 3, 2, 7, 7}));
    expect("and ends the listing", answers(answer, 4, 1, 0));
    expect("eight words hold it whole", page(0, 100, whole, 8, answer) == 0 && holds(whole, output) && answers(answer, 4, 3, 0));
    expect("the work record is wiped", memcmp(work_lits, (int32_t[4]){0}, sizeof work_lits) == 0 && memcmp(work_kinds, (uint8_t[4]){0}, sizeof work_kinds) == 0);
    expect("a start past the end is refused with 20", page(5, 100, whole, 8, answer) == 20);
    expect("room for no entry is refused with 21", page(0, 100, whole, 1, answer) == 21);
    expect("nothing is changed", holds(whole, output) && answers(answer, 4, 3, 0));
}

/* Case A, step by step: what each step answers as its reason, and what the record's
   reasons are after it. */
static void eight_reasons(void)
{
    static const uint32_t steps[8][5] = {{0}, {0}, {1, 0, 0, 1, 0}, {2}, {0}, {2, 0, 0, 2, 0}, {3, 0, 0, 2, 3}, {4, 0, 0, 2, 3}};
    int32_t lits[4];
    uint8_t kinds[4];
    uint32_t reasons[4];
    uint64_t now[MOKI_STEP_WORDS];
    int right = moki_open(block, COUNT(block), lits, 4, kinds, 4, reasons, 4, 0, now) == 0;

    for (int step = 0; step < 8; step++) {
        right &= moki_step(now[0], now[1], (uint32_t)now[2], block, COUNT(block), lits, 4, kinds, 4, reasons, 4, now[1], 0, now) == 0;
        right &= now[3] == steps[step][0] && memcmp(reasons, steps[step] + 1, sizeof reasons) == 0;
    }
    expect("case A's eight steps have their reasons", right && now[2] == MOKI_UNSAT);
}

/* Case A, five steps counted and then to the end: each clause's true literals, and its
   existential ones that are unassigned. It has 5 clauses; 4 + 13 places of index. */
static void counted(void)
{
    int32_t lits[4];
    uint8_t kinds[4];
    uint32_t reasons[4];
    uint32_t trues[6] = {9, 9, 9, 9, 9, 9};
    uint32_t opens[6] = {9, 9, 9, 9, 9, 9};
    uint32_t index[18] = {0};
    uint64_t now[MOKI_RUN_WORDS];

    index[17] = 9;
    expect("a session for a counted run", moki_open(block, COUNT(block), lits, 4, kinds, 4, reasons, 4, 0, now) == 0);
    expect("with four places for five clauses it is refused with 11", moki_counted(0, 0, MOKI_OPEN, block, COUNT(block), lits, 4, kinds, 4, reasons, 4, trues, 4, opens, 6, index, 18, 0, 5, block, 0, now) == 11);
    expect("and with an index of 16 too", moki_counted(0, 0, MOKI_OPEN, block, COUNT(block), lits, 4, kinds, 4, reasons, 4, trues, 6, opens, 6, index, 16, 0, 5, block, 0, now) == 11 && trues[0] == 9);
    expect("five steps are counted", moki_counted(0, 0, MOKI_OPEN, block, COUNT(block), lits, 4, kinds, 4, reasons, 4, trues, 6, opens, 6, index, 18, 0, 5, block, 0, now) == 0 && now[3] == 5);
    expect("what is true in each clause", memcmp(trues, (uint32_t[]){1, 0, 0, 0, 1, 9}, sizeof trues) == 0);
    expect("and what is open", memcmp(opens, (uint32_t[]){1, 1, 2, 1, 2, 9}, sizeof opens) == 0);
    expect("and so on to the end", moki_counted(now[0], now[1], (uint32_t)now[2], block, COUNT(block), lits, 4, kinds, 4, reasons, 4, trues, 6, opens, 6, index, 18, 5, 100, block, 0, now) == 0 && now[2] == MOKI_UNSAT && now[3] == 3 && now[4] == 4);
    expect("with these numbers", memcmp(trues, (uint32_t[]){1, 1, 1, 0, 1, 9}, sizeof trues) == 0 && memcmp(opens, (uint32_t[]){0, 0, 0, 0, 0, 9}, sizeof opens) == 0);
    expect("past the index nothing is written", index[17] == 9);
}

static void bad_input(void)
{
    int32_t lits[4] = {7, 7, 7, 7};
    uint8_t kinds[4] = {7, 7, 7, 7};
    uint32_t reasons[4] = {7, 7, 7, 7};
    uint64_t answer[MOKI_RUN_WORDS] = {7, 7, 7, 7, 7};
    uint32_t output[2] = {7, 7};
    int32_t wrong[COUNT(block)];

    memcpy(wrong, block, sizeof block);
    wrong[9] = INT32_MIN;
    expect("the least word in the prefix is refused with 5", moki_check(wrong, COUNT(wrong)) == 5);
    expect("too few words are refused with 1", moki_check(block, 5) == 1);
    expect("a short record is refused with 11", moki_open(block, COUNT(block), lits, 3, kinds, 4, reasons, 4, 0, answer) == 11);
    expect("in a step too", moki_step(0, 0, MOKI_OPEN, block, COUNT(block), lits, 4, kinds, 3, reasons, 4, 0, 1, answer) == 11);
    expect("in a run", moki_run(0, 0, MOKI_OPEN, block, COUNT(block), lits, 4, kinds, 4, reasons, 3, 0, 9, block, 0, answer) == 11);
    expect("and in a page", moki_page(openings, COUNT(openings), lits, 4, kinds, 3, 0, block, 0, 100, output, 2, answer) == 11);
    expect("a reason beside a decision is refused with 12", moki_step(1, 0, MOKI_OPEN, block, COUNT(block), (int32_t[]){1, 0, 0, 0}, 4, (uint8_t[]){1, 0, 0, 0}, 4, (uint32_t[]){1, 0, 0, 0}, 4, 0, 0, answer) == 12);
    expect("and so is one over the clauses", moki_step(1, 0, MOKI_OPEN, block, COUNT(block), (int32_t[]){1, 0, 0, 0}, 4, (uint8_t[]){0, 0, 0, 0}, 4, (uint32_t[]){6, 0, 0, 0}, 4, 0, 0, answer) == 12);
    expect("nothing is written", lits[0] == 7 && kinds[0] == 7 && reasons[0] == 7 && output[0] == 7 && answer[0] == 7 && answer[3] == 7 && answer[4] == 7);
}

/* The listing's formula is Valid: what its record shows is an opening that wins, the
   values of 1 and 2. While the session is open there is nothing to show. */
static void a_witness(void)
{
    int32_t lits[4] = {0}, shown[4] = {7, 7, 7, 7};
    uint8_t kinds[4] = {0};
    uint32_t reasons[4] = {0};
    uint64_t answer[MOKI_SHOWN_WORDS] = {7}, session[MOKI_RUN_WORDS];

    expect("an open session shows nothing", moki_shown(0, 0, MOKI_OPEN, openings, COUNT(openings), lits, 4, kinds, 4, shown, 4, answer) == 32 && answer[0] == 7 && shown[0] == 7);
    expect("the listing's formula is Valid", moki_run(0, 0, MOKI_OPEN, openings, COUNT(openings), lits, 4, kinds, 4, reasons, 4, 0, 1000, openings, 0, session) == 0 && session[2] == MOKI_VALID);
    expect("three places are too few for four variables", moki_shown(session[0], session[1], (uint32_t)session[2], openings, COUNT(openings), lits, 4, kinds, 4, shown, 3, answer) == 30);
    expect("two values are shown", moki_shown(session[0], session[1], (uint32_t)session[2], openings, COUNT(openings), lits, 4, kinds, 4, shown, 4, answer) == 0 && answer[0] == 2);
    expect("of 1 and 2, one of them true", (shown[0] == 1 || shown[0] == -1) && (shown[1] == 2 || shown[1] == -2) && (shown[0] > 0 || shown[1] > 0));
    expect("and the places behind them stay", shown[2] == 7 && shown[3] == 7);
}

/* Case A is false. A block of 25 variables and no clauses is more than plain takes. */
static void a_second_opinion(void)
{
    int32_t many[6 + 25] = {25, 0, 0, 6, 31, 31};
    uint64_t answer[MOKI_PLAIN_WORDS] = {7};

    for (int32_t v = 1; v <= 25; v++)
        many[5 + v] = v;
    expect("25 variables are refused with 22, and nothing is written", moki_plain(many, COUNT(many), answer) == 22 && answer[0] == 7);
    expect("a second opinion on case A is Unsat", moki_plain(block, COUNT(block), answer) == 0 && answer[0] == MOKI_UNSAT);
}

int main(void)
{
    a_text();
    a_written_text();
    two_administrators();
    eight_reasons();
    counted();
    a_second_opinion();
    a_witness();
    a_listing();
    bad_input();
    return failures != 0;
}
