/* Mokihazureo for C: a proved solver for quantified Boolean formulas, one rule
   at a time. docs/bindings.md is the guide; docs/SPEC.md has the rules, the formula
   block and the table of refusals.

   Every call that can be refused answers its status: 0 if it is accepted, else the
   number of its refusal, and then nothing is written anywhere; but reading a text
   always writes its answer and its whole output. Any words may stand in any buffer and
   any number in any place. Of the memory itself this is asked: no pointer is
   null, each is aligned for its type, each buffer has at least its length, and a
   buffer that is written overlaps no other. */
#ifndef MOKIHAZUREO_H
#define MOKIHAZUREO_H

#include <stddef.h>
#include <stdint.h>

#ifdef __cplusplus
extern "C" {
#endif

/* The state of a session. A number over MOKI_UNSAT counts as MOKI_UNSAT. */
enum { MOKI_OPEN = 0, MOKI_VALID = 1, MOKI_UNSAT = 2 };

/* How many words a call's answer has. Its array must have as many places or more;
   it comes as a pointer alone, so no call can see how many there are. */
enum { MOKI_SESSION_WORDS = 3, MOKI_STEP_WORDS = 4, MOKI_RUN_WORDS = 5, MOKI_PAGE_WORDS = 3, MOKI_SHOWN_WORDS = 1, MOKI_PLAIN_WORDS = 1, MOKI_READ_WORDS = 1, MOKI_WRITE_WORDS = 1 };

/* How many words a reader has between two pieces of a text. */
enum { MOKI_READER_WORDS = 12 };

/* What a status means, in the words of the table of docs/SPEC.md (tools/refusals --write
   puts them here, and the gate compares them). */
static inline const char *moki_refusal_text(uint32_t status)
{
    switch (status) {
    case 1: return "block too short for a header";
    case 2: return "count out of range";
    case 3: return "wrong offset";
    case 4: return "block of the wrong length";
    case 5: return "prefix word that names no variable";
    case 6: return "variable bound more than once";
    case 7: return "innermost variable is universal";
    case 8: return "wrong clause end";
    case 9: return "literal that names no variable";
    case 10: return "clause with a literal and its opposite";
    case 11: return "record buffer too short";
    case 12: return "broken record";
    case 13: return "session is over";
    case 14: return "seen at another revision";
    case 15: return "no revisions left";
    case 16: return "no decision is due";
    case 17: return "literal is not open";
    case 18: return "first group is universal";
    case 19: return "first group too large";
    case 20: return "start past the end";
    case 21: return "no room for an entry";
    case 22: return "too many values to try";
    case 23: return "clause that repeats a literal";
    case 27: return "not a text";
    case 28: return "numbers that can't be right";
    case 29: return "text over the limits";
    case 30: return "output too short";
    case 31: return "formula that no block may have";
    case 32: return "nothing to show";
    default: return status == 0 ? "accepted" : "no number of the table";
    }
}

/* The record is two buffers, literals and kinds; open, step and run are lent a third
   beside them, the reasons. Each has V places or more. A reason is the number of the
   clause that forced the entry, counted from 0, plus one; 0 is none. */

/* Refusals 1 to 10 and 23. */
uint32_t moki_check(const int32_t *block, size_t block_length);

/* Refusals 1 to 11 and 23. The answer is the session: length, revision, state. */
uint32_t moki_open(const int32_t *block, size_t block_length,
                   int32_t *lits, size_t lits_length,
                   uint8_t *kinds, size_t kinds_length,
                   uint32_t *reasons, size_t reasons_length,
                   uint64_t first_revision,
                   uint64_t answer[MOKI_SESSION_WORDS]);

/* Refusals 1 to 17 and 23. The session goes in as three numbers; the answer is the
   next session, then the step's reason: that of the clause that forced an entry, or of
   the lowest clause in conflict, else 0. Proposal 0 leaves the choice to the solver. */
uint32_t moki_step(size_t length, uint64_t revision, uint32_t state,
                   const int32_t *block, size_t block_length,
                   int32_t *lits, size_t lits_length,
                   uint8_t *kinds, size_t kinds_length,
                   uint32_t *reasons, size_t reasons_length,
                   uint64_t seen_revision, int32_t proposal,
                   uint64_t answer[MOKI_STEP_WORDS]);

/* Refusals 1 to 15 and 23. The answer is the next session, then the count of
   accepted steps, then the last one's reason, 0 if there was none. */
uint32_t moki_run(size_t length, uint64_t revision, uint32_t state,
                  const int32_t *block, size_t block_length,
                  int32_t *lits, size_t lits_length,
                  uint8_t *kinds, size_t kinds_length,
                  uint32_t *reasons, size_t reasons_length,
                  uint64_t seen_revision, uint32_t budget,
                  const int32_t *preferred, size_t preferred_length,
                  uint64_t answer[MOKI_RUN_WORDS]);

/* Refusals 1 to 15 and 23. A run with the same answer and the same record, faster on
   long runs. It is lent numbers by clause, C places or more, and an index, V+T or
   more; shorter ones are refused with 11. Afterwards the first C places of trues and
   of opens hold how many literals of each clause are true, and how many are
   existential and unassigned; their other places stay. What the first V+T places of
   the index hold is the library's own. */
uint32_t moki_counted(size_t length, uint64_t revision, uint32_t state,
                      const int32_t *block, size_t block_length,
                      int32_t *lits, size_t lits_length,
                      uint8_t *kinds, size_t kinds_length,
                      uint32_t *reasons, size_t reasons_length,
                      uint32_t *trues, size_t trues_length,
                      uint32_t *opens, size_t opens_length,
                      uint32_t *index, size_t index_length,
                      uint64_t seen_revision, uint32_t budget,
                      const int32_t *preferred, size_t preferred_length,
                      uint64_t answer[MOKI_RUN_WORDS]);

/* Refusals 1 to 11, 18 to 21 and 23. The openings from start on that win, two words
   of output each: the opening, and how many ones its number has. The answer is where
   the next page begins, the count of openings written, and 1 if the page stopped
   because the search of that next opening didn't end within the budget, else 0. The
   literals and kinds are for work: their first V places are 0 afterwards. */
uint32_t moki_page(const int32_t *block, size_t block_length,
                   int32_t *lits, size_t lits_length,
                   uint8_t *kinds, size_t kinds_length,
                   uint32_t start,
                   const int32_t *preferred, size_t preferred_length,
                   uint32_t budget,
                   uint32_t *output, size_t output_length,
                   uint64_t answer[MOKI_PAGE_WORDS]);

/* Refusals 1 to 12, 23, 30 and 32. What a session that has ended shows: a value for each
   variable of the first group, as a literal, in prefix order. Reached by calls from an
   opening on, these are an opening that wins where the session is Valid, and a
   counter-example where it is Unsat. The answer is how many they are; the output has V
   places or more, and those behind the values stay as they were. With 32 there is
   nothing to show: the session is open, or Valid with a universal first group, or Unsat
   with another one. */
uint32_t moki_shown(size_t length, uint64_t revision, uint32_t state,
                    const int32_t *block, size_t block_length,
                    const int32_t *lits, size_t lits_length,
                    const uint8_t *kinds, size_t kinds_length,
                    int32_t *output, size_t output_length,
                    uint64_t answer[MOKI_SHOWN_WORDS]);

/* Refusals 1 to 10, 22 and 23. A second opinion, by the definition of truth alone: the
   answer is MOKI_VALID or MOKI_UNSAT. It takes at most 24 variables, and may try all of
   their values. */
uint32_t moki_plain(const int32_t *block, size_t block_length,
                    uint64_t answer[MOKI_PLAIN_WORDS]);

/* Reads a formula's text (QDIMACS) into a block. The status is 0, and the answer the
   block's length; or 27, and the answer the place of the byte that no text goes on
   with, or the text's length if it only ends too early; or 28, 29 or 30, and the answer
   0; or 31, and the answer the row by which the block is refused. The whole output is
   written: the block and then zeros, or zeros alone. */
uint32_t moki_read(const uint8_t *bytes, size_t bytes_length,
                   int32_t *output, size_t output_length,
                   uint64_t answer[MOKI_READ_WORDS]);

/* The same in pieces: begin, any number of pieces with the same output, which is for
   work meanwhile, and end, which answers and leaves what moki_read does of the pieces
   joined. Begin and piece can't be refused. The reader's words are the library's own;
   with other words in them each call still ends and keeps to its buffers. */
void moki_read_begin(uint64_t reader[MOKI_READER_WORDS]);

void moki_read_piece(uint64_t reader[MOKI_READER_WORDS],
                     const uint8_t *bytes, size_t bytes_length,
                     int32_t *output, size_t output_length);

uint32_t moki_read_end(const uint64_t reader[MOKI_READER_WORDS],
                       int32_t *output, size_t output_length,
                       uint64_t answer[MOKI_READ_WORDS]);

/* Refusals 1 to 10, 23, and 30 if the text doesn't fit the output. Writes the block as
   a text: a problem line, a line for each group and one for each clause. The answer is
   the text's length. The bytes behind the text stay as they were. */
uint32_t moki_write(const int32_t *block, size_t block_length,
                    uint8_t *output, size_t output_length,
                    uint64_t answer[MOKI_WRITE_WORDS]);

#ifdef __cplusplus
}
#endif

#endif
