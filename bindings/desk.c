/*
 * The desk: takes requests on standard input, calls the library once for each
 * and answers on standard output, until the input ends.
 *
 * All numbers are unsigned and little-endian, of 64 bits where nothing else
 * is said. A request is
 *
 *     operation, facts, steps
 *     each table: entries lent, entries held, then the entries held
 *
 * The tables stand in this order, every one in every request:
 *
 *     needs, sets, clears   words of 64 bits
 *     costs                 32 bits
 *     start, goal           words of 64 bits
 *     walk                  16 bits
 *     file                  8 bits
 *     words                 words of 64 bits: rows, or the one set asked for
 *     prices                32 bits: distances, or the costs of cuts
 *     left                  32 bits: the costs left
 *
 * No more entries are lent than held, so that entries past the lent part show
 * whether they stay as they were. A set has the length that its operation
 * gives it, whatever is said to be lent of the words. An answer is
 *
 *     the four numbers of the operation's answer, 0 for those that it lacks
 *     each table: the entries held, as they are after the call
 *
 * Operations: 0 check, 1 reach, 2 distances, 3 must rows, 4 must-pass facts,
 * 5 must-pass steps, 6 just-before rows, 7 cuts, 8 replay, 9 read.
 *
 * The status is 0 at the input's end and 2 if a request isn't one. No header
 * is used, so that this file can be compiled for x86-64 on any machine.
 */

typedef unsigned long word;    /* 64 bits; also a size */
typedef unsigned int number;   /* 32 bits */
typedef unsigned short entry;  /* 16 bits */
typedef unsigned char byte;    /* 8 bits */

/* Has a negative size, and is refused, where the types have other widths. */
typedef char widths_are_right[sizeof(word) == 8 && sizeof(void *) == 8 && sizeof(number) == 4 &&
                              sizeof(entry) == 2 ? 1 : -1];

/* What is used of the C library. */
long read(int file, void *to, word size);
long write(int file, const void *from, word size);
void *malloc(word size);
void free(void *memory);

/* The answers of the library. */
typedef struct { word number, place; } salgezhim_answer;
typedef struct { word number, place, passes; } salgezhim_reached;
typedef struct { word number, place, rounds, floor; } salgezhim_cutting;
typedef struct { word outcome, number, place, cost; } salgezhim_replayed;
typedef struct { word number, place, facts, steps; } salgezhim_reading;

/* The arguments that every operation on a task begins with. */
#define TASK                                        \
    word facts, word steps,                         \
    const word *needs, word needs_len,              \
    const word *sets, word sets_len,                \
    const word *clears, word clears_len,            \
    const number *costs, word costs_len,            \
    const word *start, word start_len,              \
    const word *goal, word goal_len

/* The operations of the library. */
salgezhim_answer salgezhim_check(TASK);
salgezhim_reached salgezhim_reach(TASK, word set[4]);
salgezhim_answer salgezhim_distances(TASK, number *out, word out_len);
salgezhim_answer salgezhim_must_rows(TASK, word *rows, word rows_len);
salgezhim_answer salgezhim_must_facts(TASK, word set[4]);
salgezhim_answer salgezhim_must_steps(TASK, word set[16]);
salgezhim_answer salgezhim_just_before_rows(TASK, word *rows, word rows_len);
salgezhim_cutting salgezhim_cuts(TASK, word *rows, word rows_len, number *prices, word prices_len,
                                 number *left, word left_len);
salgezhim_replayed salgezhim_replay(TASK, const entry *walk, word walk_len);
salgezhim_reading salgezhim_read(const byte *file, word file_len,
                                 word *needs, word needs_len, word *sets, word sets_len,
                                 word *clears, word clears_len, number *costs, word costs_len,
                                 word *start, word start_len, word *goal, word goal_len);

/* The tables in their order. */
enum { NEEDS, SETS, CLEARS, COSTS, START, GOAL, WALK, BYTES, WORDS, PRICES, LEFT, TABLES };

/* How many bytes an entry of each table has. */
static const word WIDTHS[TABLES] = {8, 8, 8, 4, 8, 8, 2, 1, 8, 4, 4};

/* A table: its entries, and how many of them are lent and held. */
struct table { void *entries; word lent, held; };

/* A request: its three numbers and its tables. */
struct request { word operation, facts, steps; struct table tables[TABLES]; };

/* A table as an argument, and the task of a request as arguments. */
#define LENT(request, table) (request)->tables[table].entries, (request)->tables[table].lent
#define TASK_OF(request)                                                               \
    (request)->facts, (request)->steps,                                                \
    LENT(request, NEEDS), LENT(request, SETS), LENT(request, CLEARS),                  \
    LENT(request, COSTS), LENT(request, START), LENT(request, GOAL)

/* The words that a set is written to. */
static word *set_of(struct request *request)
{
    return request->tables[WORDS].entries;
}

/* Copies an answer that is a number and a place. */
static void copy(salgezhim_answer from, word *answer)
{
    answer[0] = from.number;
    answer[1] = from.place;
}

/* Answers operation 0. */
static void check(struct request *request, word *answer)
{
    copy(salgezhim_check(TASK_OF(request)), answer);
}

/* Answers operation 1. */
static void reach(struct request *request, word *answer)
{
    salgezhim_reached reached = salgezhim_reach(TASK_OF(request), set_of(request));
    answer[0] = reached.number;
    answer[1] = reached.place;
    answer[2] = reached.passes;
}

/* Answers operation 2. */
static void distances(struct request *request, word *answer)
{
    copy(salgezhim_distances(TASK_OF(request), LENT(request, PRICES)), answer);
}

/* Answers operation 3. */
static void must_rows(struct request *request, word *answer)
{
    copy(salgezhim_must_rows(TASK_OF(request), LENT(request, WORDS)), answer);
}

/* Answers operation 4. */
static void must_facts(struct request *request, word *answer)
{
    copy(salgezhim_must_facts(TASK_OF(request), set_of(request)), answer);
}

/* Answers operation 5. */
static void must_steps(struct request *request, word *answer)
{
    copy(salgezhim_must_steps(TASK_OF(request), set_of(request)), answer);
}

/* Answers operation 6. */
static void just_before_rows(struct request *request, word *answer)
{
    copy(salgezhim_just_before_rows(TASK_OF(request), LENT(request, WORDS)), answer);
}

/* Answers operation 7. */
static void cuts(struct request *request, word *answer)
{
    salgezhim_cutting cutting = salgezhim_cuts(TASK_OF(request), LENT(request, WORDS),
                                               LENT(request, PRICES), LENT(request, LEFT));
    answer[0] = cutting.number;
    answer[1] = cutting.place;
    answer[2] = cutting.rounds;
    answer[3] = cutting.floor;
}

/* Answers operation 8. */
static void replay(struct request *request, word *answer)
{
    salgezhim_replayed replayed = salgezhim_replay(TASK_OF(request), LENT(request, WALK));
    answer[0] = replayed.outcome;
    answer[1] = replayed.number;
    answer[2] = replayed.place;
    answer[3] = replayed.cost;
}

/* Answers operation 9. */
static void read_file(struct request *request, word *answer)
{
    salgezhim_reading reading = salgezhim_read(
        LENT(request, BYTES), LENT(request, NEEDS), LENT(request, SETS), LENT(request, CLEARS),
        LENT(request, COSTS), LENT(request, START), LENT(request, GOAL));
    answer[0] = reading.number;
    answer[1] = reading.place;
    answer[2] = reading.facts;
    answer[3] = reading.steps;
}

/* An operation, and how many words the set has that it writes. */
struct operation { void (*answer)(struct request *, word *); word set_words; };

/* The operations by their numbers. */
static const struct operation OPERATIONS[] = {
    {check, 0}, {reach, 4}, {distances, 0}, {must_rows, 0}, {must_facts, 4},
    {must_steps, 16}, {just_before_rows, 0}, {cuts, 0}, {replay, 0}, {read_file, 0},
};

/* How many operations there are. */
enum { OPERATION_COUNT = sizeof OPERATIONS / sizeof OPERATIONS[0] };

/* The most entries that a table may hold. */
static const word MOST_HELD = 1ul << 24;

/* Reads so many bytes; gives how many there were before the input's end. */
static word take(void *to, word size)
{
    word taken = 0;
    while (taken < size) {
        long more = read(0, (byte *)to + taken, size - taken);
        if (more <= 0)
            break;
        taken += (word)more;
    }
    return taken;
}

/* Writes so many bytes; says whether all of them could be written. */
static int give(const void *from, word size)
{
    word given = 0;
    while (given < size) {
        long more = write(1, (const byte *)from + given, size - given);
        if (more <= 0)
            return 0;
        given += (word)more;
    }
    return 1;
}

/* Reads a table with entries of this width; says whether there was one. Its
   address isn't null, however few entries it holds. */
static int take_table(struct table *table, word width)
{
    word lengths[2];
    if (take(lengths, sizeof lengths) != sizeof lengths)
        return 0;
    table->lent = lengths[0];
    table->held = lengths[1];
    if (table->lent > table->held || table->held > MOST_HELD)
        return 0;
    table->entries = malloc(table->held * width + sizeof(word));
    return table->entries && take(table->entries, table->held * width) == table->held * width;
}

/* Reads the tables of a request; says whether it is one that can be answered. */
static int take_tables(struct request *request)
{
    for (int table = 0; table < TABLES; table++)
        if (!take_table(&request->tables[table], WIDTHS[table]))
            return 0;
    return request->operation < OPERATION_COUNT &&
           request->tables[WORDS].held >= OPERATIONS[request->operation].set_words;
}

/* Calls the operation and writes the answer; says whether that could be done. */
static int give_answer(struct request *request)
{
    word answer[4] = {0, 0, 0, 0};
    OPERATIONS[request->operation].answer(request, answer);
    int given = give(answer, sizeof answer);
    for (int table = 0; table < TABLES; table++) {
        struct table *after = &request->tables[table];
        given = given && give(after->entries, after->held * WIDTHS[table]);
        free(after->entries);
    }
    return given;
}

/* Answers one request after another. */
int main(void)
{
    struct request request;
    word head[3];
    word taken;
    while ((taken = take(head, sizeof head)) == sizeof head) {
        request.operation = head[0];
        request.facts = head[1];
        request.steps = head[2];
        if (!take_tables(&request) || !give_answer(&request))
            return 2;
    }
    return taken == 0 ? 0 : 2;
}
