/* Tunesaturn: checking, rewriting and evaluating plan tables, and keeping them as text.
 *
 * A slice is passed as a pointer and a length. A pointer may be null only where
 * its length is 0. No function keeps a pointer, allocates, or writes to anything
 * but the buffers named as written. Buffers that are written overlap no other.
 *
 * A plan table is a slice of words: a header of 8 words (total words, tables T,
 * 8, nodes N, 8+T, items I, 8+T+6N, 0), the T table widths, the N nodes of 6
 * words (operator, left, right, kind, first item, item count) and the I items of
 * 7 words (tag, two terms of 3 words). Inputs are lower node numbers; the last
 * node is the root. Items stand in the order of their nodes: first item is the
 * number of items of all nodes before, also where a node has none, and the
 * counts add up to I. examples/scrub_list.c has a whole one; docs/PLANS.md says
 * all of it, with the rows that each operator gives.
 *   operators  1 scan (left: table)  2 select  3 map  4 project  5 join  6 group
 *              7 groupjoin  8 dependent join
 *   kinds      of 5 and 8: 1 inner  2 semi  3 anti  4 left outer
 *   tags       1 =  2 not =  3 <  4 <=  5 >  6 >=  7 not distinct (conjuncts)
 *              8 copy  9 add  10 subtract  11 key  12 output column
 *              13 count  14 sum  15 min  16 max (of no rows the count is 0; the
 *              others pass over nulls and are null where there is no number, so that
 *              a sum of 0 is one of numbers)
 *   terms      0,0,position: a column of the input's row (for conjuncts of 5, 7
 *              and 8 of the left row, then the right; for aggregates of 7 of the
 *              right row); 1,level,position: a column of the left row of the
 *              dependent join that many levels outward; 2,0,constant (32 bits,
 *              signed); 3,0,0: null; 0,0,0 where a term is unused
 */
#ifndef TUNESATURN_H
#define TUNESATURN_H

#include <stddef.h>
#include <stdint.h>

#ifdef __cplusplus
extern "C" {
#endif

/* The cell of a null. Every other cell lies within 2^47-1 of zero. */
#define TUNESATURN_NULL INT64_MIN

/* No plan table that is accepted has more words. */
#define TUNESATURN_LONGEST 15560

/* No text has more bytes: enough for every table that passes refusals 1 and 2. */
#define TUNESATURN_LONGEST_TEXT 170956

/* More bytes than these are not read as a text. */
#define TUNESATURN_TEXT_LIMIT 262144

/* The bytes of stack that each function takes at the deepest plans and the longest
 * texts, measured from outside on x86-64 (tests/stack.c) and rounded up; no proof
 * speaks of them. */
#define TUNESATURN_CHECK_STACK 8192
#define TUNESATURN_REWRITE_STACK 278528
#define TUNESATURN_EVALUATE_STACK 249856
#define TUNESATURN_WRITE_TEXT_STACK 1024
#define TUNESATURN_READ_TEXT_STACK 1024

/* number: 0 where the call is accepted, else the number of the refusal;
 * node:   the node that a refusal 3 to 7, 14 or 15 names, the line that 16 names,
 *         else 0;
 * count:  what the function says of it, 0 for a refusal. */
typedef struct {
    uint32_t number;
    uint32_t node;
    uint64_t count;
} tunesaturn_answer;

/* Checks a plan table of any length with any words. It answers 0, 0, 0 for a
 * plan that is accepted, and otherwise the first refusal, lowest node first:
 *   1  the header is wrong
 *   2  not 1 to 16 tables, 1 to 256 nodes, at most 2,000 items, or a table's width
 *      not 1 to 64
 *   3  a node or its items malformed  4  a node other than the root unused
 *   5  a row wider than 64            6  an open node used more than once
 *   7  a column that does not exist
 * The words are only read. */
tunesaturn_answer tunesaturn_check(const uint32_t *words, size_t length);

/* Rewrites a plan table to one without dependent joins, which gives the same
 * rows for every database. It answers 0, 0 and the number of words written,
 * or a refusal of the check, or
 *   8  the rewriting has over 256 nodes, over 2,000 items or a row over 64
 *   9  out is shorter than the rewritten plan
 * Where it is accepted, the new words stand at the front of out and the rest
 * of out is as it was; TUNESATURN_LONGEST words are always enough. Where it is
 * refused, all of out is as it was. The words are only read.
 *
 * When to rewrite: as written, the right side of a dependent join is worked out
 * anew for each left row, so that over two rows each further dependent join inside
 * another doubles the time; a rewriting works every node out once. It pays with
 * rows: the rules keep the plan's rows for every database, but a rewriting holds
 * more in between (the domain joined with a table: with a limit of 4,096 about 64
 * drives by 64 scrubs), so tunesaturn_evaluate may refuse it with 14 where it
 * accepts the original, and it needs more scratch. */
tunesaturn_answer tunesaturn_rewrite(const uint32_t *words, size_t length,
                                     uint32_t *out, size_t room);

/* Works a plan table out over a database: counts has the number of rows of each
 * table, cells the tables one after the other, by rows; limit is the most rows
 * that a node may have, 1 to 4,096. It answers 0, 0 and the number of rows, or a
 * refusal of the check, or
 *   10  not a row count of 0 to 4,096 for each table, not as many cells, or a
 *       cell out of range
 *   11  limit is not 1 to 4,096
 *   12  scratch has fewer than nodes * limit * (the widest row of a node) cells
 *   13  out has fewer than limit * (the root's width) cells
 *   14  a node has more than limit rows
 *   15  a number of a row is not within 2^47-1 of zero
 * Where it is accepted, the root's rows stand one after the other at the front of
 * out and the rest of out is as it was; where it is refused, all of out is as it
 * was. Refused with 1 to 13 it leaves scratch as it was, otherwise every cell of
 * scratch is 0. Words, counts and cells are only read.
 *
 * A plan with dependent joins inside one another can take long: over two rows the
 * time doubles with each. tunesaturn_rewrite is the way out. */
tunesaturn_answer tunesaturn_evaluate(const uint32_t *words, size_t length,
                                      const uint32_t *counts, size_t tables,
                                      const int64_t *cells, size_t cell_count,
                                      uint32_t limit,
                                      int64_t *scratch, size_t scratch_room,
                                      int64_t *out, size_t room);

/* The text of a plan table, for keeping it where words cannot stand:
 *   line 1     T N I
 *   line 2     the T table widths
 *   N lines    the six words of a node each
 *   I lines    the seven words of an item each
 * in decimal, with a single space between two numbers and none at either end of a
 * line. Each line, the last too, is ended by a newline, byte 10; nothing stands
 * behind the last one, no byte 0 either. A constant, that is the third word of a
 * term whose first word is 2, is signed: -2147483648 to 2147483647, a minus before
 * a negative one. Every other number is a word as it is, 0 to 4294967295. There is
 * no other sign, and no leading zero but in 0 itself.
 *
 * Every table that passes refusals 1 and 2 of the check has one text, and every
 * text is that of one table. Neither function looks at operators, tags or uses:
 * whether the words form a plan is the check's business. Plan S is
 *   2 6 3
 *   1 1
 *   1 0 0 0 0 0
 *   1 1 0 0 0 0
 *   2 1 0 0 0 1
 *   6 2 0 0 1 1
 *   8 0 3 1 2 0
 *   2 4 0 0 2 1
 *   1 0 0 0 1 0 0
 *   13 0 0 0 0 0 0
 *   3 0 0 1 2 0 2 */

/* Writes the text of a plan table of any length with any words. It answers 0, 0
 * and the number of bytes written, or 1 or 2 exactly where the check does, or
 *   17  text has less room than the table's text
 * Where it is accepted, the bytes stand at the front of text and the rest of text
 * is as it was; TUNESATURN_LONGEST_TEXT bytes are always enough. Where it is
 * refused, all of text is as it was. The words are only read. */
tunesaturn_answer tunesaturn_write_text(const uint32_t *words, size_t length,
                                        uint8_t *text, size_t room);

/* Reads a text, any bytes of any length, back to the words of its plan table, the
 * header's total and offsets included. It answers 0, 0 and the number of words
 * written, or
 *   16  not a text of this form, or T, N, I, a width or another number out of
 *       range; node is the number of the first line that is bad, from 1. A line
 *       without its newline is bad. A missing line has the number it would have,
 *       so no bytes at all give 1; whatever stands behind the last line, even one
 *       byte, is line 3+N+I. More than TUNESATURN_TEXT_LIMIT bytes give 0.
 *   17  words has less room than the table; 16 is looked for in the whole text
 *       before
 * Where it is accepted, the table stands at the front of words and the rest of
 * words is as it was; TUNESATURN_LONGEST words are always enough, and
 * tunesaturn_write_text gives the same text for that table. Where it is refused,
 * all of words is as it was. The text is only read. */
tunesaturn_answer tunesaturn_read_text(const uint8_t *text, size_t length,
                                       uint32_t *words, size_t room);

#ifdef __cplusplus
}
#endif

#endif
