/* The analyser's operations for C: a function for each operation of document 01, over plain numbers
   and tables.

   A table is a pointer and the number of its entries. No pointer is null, also where that number is 0,
   and a table or a set that is lent for writing overlaps nothing else that is lent. Within these two
   rules any values can be passed: what is wrong with them is refused.

   On a refusal `number` is document 01's number of it, `place` its place, and every table and set
   stays as it was. Where nothing is refused both are 0.

   The row of a step needs no function: it is the four words of the table of needs or sets from 4 times
   the step number on. */
#ifndef SALGEZHIM_H
#define SALGEZHIM_H

#include <stddef.h>
#include <stdint.h>

#ifdef __cplusplus
extern "C" {
#endif

/* A refusal, or two zeros. */
typedef struct {
    uint64_t number;
    uint64_t place;
} salgezhim_answer;

/* The same, and the number of passes. */
typedef struct {
    uint64_t number;
    uint64_t place;
    uint64_t passes;
} salgezhim_reached;

/* The same, and the number of rounds and the floor. */
typedef struct {
    uint64_t number;
    uint64_t place;
    uint64_t rounds;
    uint64_t floor;
} salgezhim_cutting;

/* What becomes of a walk: which of the four outcomes; the number of a refusal; its place, or the entry
   where the walk is stuck; and the cost of a walk that is done. */
typedef struct {
    uint64_t outcome;
    uint64_t number;
    uint64_t place;
    uint64_t cost;
} salgezhim_replayed;

/* A refusal or two zeros, and the numbers of facts and steps, both 0 where the file is refused. */
typedef struct {
    uint64_t number;
    uint64_t place;
    uint64_t facts;
    uint64_t steps;
} salgezhim_reading;

/* The outcomes of a walk. */
enum { SALGEZHIM_DONE = 0, SALGEZHIM_STUCK = 1, SALGEZHIM_SHORT = 2, SALGEZHIM_REFUSED = 3 };

/* A task as it is lent: n and m; needs, sets and clears, 4m words each; m costs; start and goal, 4 words
   each. */
#define SALGEZHIM_TASK                           \
    size_t facts, size_t steps,                  \
    const uint64_t *needs, size_t needs_len,     \
    const uint64_t *sets, size_t sets_len,       \
    const uint64_t *clears, size_t clears_len,   \
    const uint32_t *costs, size_t costs_len,     \
    const uint64_t *start, size_t start_len,     \
    const uint64_t *goal, size_t goal_len

/* What is wrong with the task, if anything. Refusals 1 to 5. */
salgezhim_answer salgezhim_check(SALGEZHIM_TASK);

/* The facts within reach, and the passes that find them. Refusals 1 to 5. */
salgezhim_reached salgezhim_reach(SALGEZHIM_TASK, uint64_t set[4]);

/* The distance of each fact, n numbers; 4,294,967,295 of one that cannot be reached. Refusals 1 to 6. */
salgezhim_answer salgezhim_distances(SALGEZHIM_TASK, uint32_t *out, size_t out_len);

/* The must row of each fact, 4n words. Refusals 1 to 6. */
salgezhim_answer salgezhim_must_rows(SALGEZHIM_TASK, uint64_t *rows, size_t rows_len);

/* The must-pass facts. Refusals 1 to 5 and 7. */
salgezhim_answer salgezhim_must_facts(SALGEZHIM_TASK, uint64_t set[4]);

/* The must-pass steps. Refusals 1 to 5 and 7. */
salgezhim_answer salgezhim_must_steps(SALGEZHIM_TASK, uint64_t set[16]);

/* The just-before row of each fact, 4n words. Refusals 1 to 6. */
salgezhim_answer salgezhim_just_before_rows(SALGEZHIM_TASK, uint64_t *rows, size_t rows_len);

/* The cut of each round, 16 words, and its cost, in tables with room for m rounds; the m costs left; the
   number of rounds and the floor. Refusals 1 to 7. */
salgezhim_cutting salgezhim_cuts(SALGEZHIM_TASK,
                                 uint64_t *rows, size_t rows_len,
                                 uint32_t *prices, size_t prices_len,
                                 uint32_t *left, size_t left_len);

/* What becomes of a walk of step numbers. Refusals 1 to 5, 8 and 9. */
salgezhim_replayed salgezhim_replay(SALGEZHIM_TASK, const uint16_t *walk, size_t walk_len);

#undef SALGEZHIM_TASK

/* Reads a task file into tables of 4m words of needs, sets and clears, m costs and 4 words of start and
   goal, or more: what is lent beyond stays. Refusals 1, 2, 5, 6 and 11 to 16, at offsets of the file. */
salgezhim_reading salgezhim_read(const uint8_t *file, size_t file_len,
                                 uint64_t *needs, size_t needs_len,
                                 uint64_t *sets, size_t sets_len,
                                 uint64_t *clears, size_t clears_len,
                                 uint32_t *costs, size_t costs_len,
                                 uint64_t *start, size_t start_len,
                                 uint64_t *goal, size_t goal_len);

#ifdef __cplusplus
}
#endif

#endif
