/* Calls each function of the library on document 01's first task and on one thing that it refuses, and
   prints every number that comes back: a line for each call, with the answer first and then each table
   or set that was lent, filled with sevens before. */
#include "salgezhim.h"

#include <stdio.h>
#include <string.h>

/* Document 01's first task: five facts, five steps, four words a set. */
static const uint64_t needs[20] = {0, 0, 0, 0, 1, 0, 0, 0, 1, 0, 0, 0, 1, 0, 0, 0, 12};
static const uint64_t sets[20] = {1, 0, 0, 0, 6, 0, 0, 0, 4, 0, 0, 0, 8, 0, 0, 0, 16};
static const uint64_t none[20];
static const uint32_t costs[5] = {1, 3, 1, 2, 1};
static const uint64_t goal[4] = {16};

/* That task, with the sizes, the table of sets and the number of costs left open. */
#define TASK(facts, steps, sets, costs_len) \
    facts, steps, needs, 20, sets, 20, none, 20, costs, costs_len, none, 4, goal, 4
#define FIRST TASK(5, 5, sets, 5)

/* Its file. */
static const uint8_t file[67] = {
    1, 5, 0, 5, 0, 3, 4, 0,                   /* head, goal */
    4, 1, 0, 0, 0, 6, 0, 0,                   /* step 0 */
    4, 3, 0, 0, 0, 5, 0, 0, 6, 1, 0, 6, 2, 0, /* step 1 */
    4, 1, 0, 0, 0, 5, 0, 0, 6, 2, 0,          /* step 2 */
    4, 2, 0, 0, 0, 5, 0, 0, 6, 3, 0,          /* step 3 */
    4, 1, 0, 0, 0, 5, 2, 0, 5, 3, 0, 6, 4, 0, /* step 4 */
    0,                                        /* end */
};

/* Fills a table of words with sevens. */
static void fill_words(uint64_t *table, size_t count) {
    for (size_t i = 0; i < count; i++) table[i] = 7;
}

/* Fills a table of numbers with sevens. */
static void fill_numbers(uint32_t *table, size_t count) {
    for (size_t i = 0; i < count; i++) table[i] = 7;
}

/* Prints a bar and a table of words. */
static void print_words(const uint64_t *table, size_t count) {
    printf(" |");
    for (size_t i = 0; i < count; i++) printf(" %llu", (unsigned long long)table[i]);
}

/* Prints a bar and a table of numbers. */
static void print_numbers(const uint32_t *table, size_t count) {
    printf(" |");
    for (size_t i = 0; i < count; i++) printf(" %lu", (unsigned long)table[i]);
}

/* Prints a name and the fields of an answer. */
static void print_answer(const char *name, const void *answer, size_t size) {
    printf("%s", name);
    for (size_t at = 0; at < size; at += sizeof(uint64_t)) {
        uint64_t field;
        memcpy(&field, (const char *)answer + at, sizeof field);
        printf(" %llu", (unsigned long long)field);
    }
}

#define PRINT_ANSWER(name, answer) print_answer(name, &(answer), sizeof(answer))

/* Checking: the task, and one with no facts. */
static void check(size_t facts) {
    salgezhim_answer answer = salgezhim_check(TASK(facts, 5, sets, 5));
    PRINT_ANSWER("check", answer);
    printf("\n");
}

/* Reach: the task, and one with too many steps. */
static void reach(size_t steps) {
    uint64_t set[4];
    fill_words(set, 4);
    salgezhim_reached answer = salgezhim_reach(TASK(5, steps, sets, 5), set);
    PRINT_ANSWER("reach", answer);
    print_words(set, 4);
    printf("\n");
}

/* Distances: with room for more than they need, and for less. */
static void distances(size_t room) {
    uint32_t out[6];
    fill_numbers(out, room);
    salgezhim_answer answer = salgezhim_distances(FIRST, out, room);
    PRINT_ANSWER("distances", answer);
    print_numbers(out, room);
    printf("\n");
}

/* Must rows: with room for more than they need, and for less. */
static void must_rows(size_t room) {
    uint64_t rows[21];
    fill_words(rows, room);
    salgezhim_answer answer = salgezhim_must_rows(FIRST, rows, room);
    PRINT_ANSWER("must_rows", answer);
    print_words(rows, room);
    printf("\n");
}

/* Must-pass facts: the task, and one where no step sets anything. */
static void must_facts(const uint64_t *table) {
    uint64_t set[4];
    fill_words(set, 4);
    salgezhim_answer answer = salgezhim_must_facts(TASK(5, 5, table, 5), set);
    PRINT_ANSWER("must_facts", answer);
    print_words(set, 4);
    printf("\n");
}

/* Must-pass steps: the task, and one where no step sets anything. */
static void must_steps(const uint64_t *table) {
    uint64_t set[16];
    fill_words(set, 16);
    salgezhim_answer answer = salgezhim_must_steps(TASK(5, 5, table, 5), set);
    PRINT_ANSWER("must_steps", answer);
    print_words(set, 16);
    printf("\n");
}

/* Just-before rows: the task, and one with a cost too few. */
static void just_before_rows(size_t costs_len) {
    uint64_t rows[21];
    fill_words(rows, 21);
    salgezhim_answer answer = salgezhim_just_before_rows(TASK(5, 5, sets, costs_len), rows, 21);
    PRINT_ANSWER("just_before_rows", answer);
    print_words(rows, 21);
    printf("\n");
}

/* Cuts: with room for as many rounds as steps, and with a word too few. */
static void cuts(size_t room) {
    uint64_t rows[80];
    uint32_t prices[5], left[6];
    fill_words(rows, room);
    fill_numbers(prices, 5);
    fill_numbers(left, 6);
    salgezhim_cutting answer = salgezhim_cuts(FIRST, rows, room, prices, 5, left, 6);
    PRINT_ANSWER("cuts", answer);
    print_words(rows, room);
    print_numbers(prices, 5);
    print_numbers(left, 6);
    printf("\n");
}

/* Replay of a walk. */
static void replay(const uint16_t *walk, size_t length) {
    salgezhim_replayed answer = salgezhim_replay(FIRST, walk, length);
    PRINT_ANSWER("replay", answer);
    printf("\n");
}

/* Reading: the whole file, and without its end record. */
static void read_file(size_t length) {
    uint64_t words[5][21];
    uint32_t prices[6];
    for (size_t i = 0; i < 5; i++) fill_words(words[i], 21);
    fill_numbers(prices, 6);
    salgezhim_reading answer = salgezhim_read(file, length, words[0], 21, words[1], 21, words[2], 21,
                                              prices, 6, words[3], 4, words[4], 4);
    PRINT_ANSWER("read", answer);
    for (size_t i = 0; i < 3; i++) print_words(words[i], 21);
    print_numbers(prices, 6);
    for (size_t i = 3; i < 5; i++) print_words(words[i], 4);
    printf("\n");
}

int main(void) {
    check(5);
    check(0);
    reach(5);
    reach(1025);
    distances(6);
    distances(4);
    must_rows(21);
    must_rows(19);
    must_facts(sets);
    must_facts(none);
    must_steps(sets);
    must_steps(none);
    just_before_rows(5);
    just_before_rows(4);
    cuts(80);
    cuts(79);
    replay((const uint16_t[]){0, 2, 3, 4}, 4);
    replay((const uint16_t[]){0, 4}, 2);
    replay((const uint16_t[]){0}, 0);
    replay((const uint16_t[]){0, 5}, 2);
    read_file(67);
    read_file(66);
    return 0;
}
