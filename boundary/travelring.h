/* Travelring's three calls from C. Each returns the number of its answer and writes a report; it keeps nothing between calls and allocates
 * nothing. docs/CONDITIONS.md tells the rules: what a condition is, its bytes, when each answer is given, what trimming does.
 *
 * Answers, and the place that comes with each. A place in the bytes counts from 0, and a number's place is its first byte.
 *
 *   no. given exactly when                                                 place                 by
 *    0  finished (trim), judged, or found                                  0                     all
 *    1  bytes end inside the tree                                          input length          all
 *    2  a number's third byte has the top bit, or the form isn't shortest  its first byte        all
 *    3  tag above 7                                                        the tag               all
 *    4  child count 0 or 1                                                 the count             all
 *    5  name too high (a boolean above 31, a number above 15)              the name              all
 *    6  written c above 2,000,000                                          c                     all
 *    7  after a child count, ends read plus ends still owed exceed 24      the connective's tag  all
 *    8  bytes follow the tree                                              first of them         all
 *    9  result, a stopped one too, longer than the output buffer           bytes needed          trim
 *   10  ration used up before the sweep ended (a stop, no refusal)         0                     trim
 *   11  assignment buffer isn't 15 numbers                                 0                     judge, find
 *   12  no satisfying assignment (find)                                    0                     find
 *
 * Order: 11 comes first; then 1 to 8, the first met from left to right; then 12 or 9; then 10 or 0.
 *
 * What is lent:
 * - A run of bytes or numbers is lent as a pointer to its first and a count. The count may be 0: then the pointer is not followed, and may
 *   be NULL. The report is never NULL.
 * - The report is written in every answer, and needs no values before. Trim's has four numbers, judge's and find's have two.
 * - Trim's output is written by its answers 0 and 10 alone, find's numbers by its answer 0 alone; all other answers leave them as they were.
 *   What is lent as const is never written.
 * - Buffers that are lent to one call must not overlap: to trim a condition in place, copy it first.
 * - An assignment is 32 boolean bits, boolean p being the bit of weight 2^p, and 15 numbers for the names 1 to 15, in order: the number named
 *   x stands at index x - 1. Number 0 is always 0. */
#ifndef TRAVELRING_H
#define TRAVELRING_H

#include <stddef.h>
#include <stdint.h>

enum {
    TRAVELRING_FINISHED = 0, /* or judged, or found */
    TRAVELRING_ENDED = 1,
    TRAVELRING_FORM = 2,
    TRAVELRING_TAG = 3,
    TRAVELRING_COUNT = 4,
    TRAVELRING_NAME = 5,
    TRAVELRING_BOUND = 6,
    TRAVELRING_CROWD = 7,
    TRAVELRING_AFTER = 8,
    TRAVELRING_LONG = 9,
    TRAVELRING_STOPPED = 10,
    TRAVELRING_UNFIT = 11,
    TRAVELRING_NOTHING = 12
};

/* Whether the answer refuses the bytes themselves, which are then no tree. */
static inline int travelring_of_reading(uint32_t answer) { return answer >= TRAVELRING_ENDED && answer <= TRAVELRING_AFTER; }

typedef int32_t travelring_whole; /* a number of an assignment */

#define TRAVELRING_NUMBERS 15        /* numbers of an assignment */
#define TRAVELRING_LONGEST 190       /* bytes of the longest tree: room for every result */
#define TRAVELRING_QUESTIONS 600     /* no tree needs more: n(n+1) for 24 ends */
#define TRAVELRING_FARTHEST 15000015 /* no number that find writes lies farther from 0 */

#ifdef __cplusplus
extern "C" {
#endif

/* Trims the tree with at most `ration` questions. report: place, questions asked, ends of the result (constants count 0), bytes written.
 * Answers 0 and 10 write the result from out's start, as many bytes as the report says last; bytes beyond it stay. All other answers write
 * nothing to out and report 0 questions, 0 ends and 0 bytes. */
uint32_t travelring_trim(const uint8_t *tree, size_t tree_len, uint32_t ration, uint8_t *out, size_t out_len, uint64_t report[4]);

/* Judges the tree under the assignment. report: place, value (1 true, 0 false; a refusal carries 0). */
uint32_t travelring_judge(const uint8_t *tree, size_t tree_len, uint32_t flags, const travelring_whole *numbers, size_t numbers_len,
                          uint64_t report[2]);

/* Finds an assignment that makes the tree true. report: place, boolean bits (0 in a refusal). Answer 0 fills the 15 numbers, each from
 * -15,000,015 to 15,000,015; all other answers leave them. Which satisfying assignment it shows is free. */
uint32_t travelring_find(const uint8_t *tree, size_t tree_len, travelring_whole *numbers, size_t numbers_len, uint64_t report[2]);

#ifdef __cplusplus
}
#endif

#endif
