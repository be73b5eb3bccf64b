/*
 * How long the library takes, as a multiple of the plain C of tests/c on the same machine in the same run, and a pack
 * numbered whole as a multiple of its edges numbered one by one.
 *
 * Usage: bench          prints a table of ratios
 *
 *        bench FAMILY   does all the work of one family once, for a tool that counts instructions, and prints how many
 *                       calls each piece of work makes
 */
#define _POSIX_C_SOURCE 200809L
#include <stdio.h>
#include <stdlib.h>
#include <string.h>
#include <time.h>

#include "../include/edges.h"
#include "../tests/c/cases.h"
#include "../tests/c/draw.h"

enum { EDGES = 200, COUNTS = 50, ROUNDS = 11, MOST_JOBS = 16, OPERATIONS = 5, RATIOS = OPERATIONS + 1 };

/* A job, and edges of it with their numbers, and as a pack. */
typedef struct {
    uint8_t block[BLOCK_LENGTH];
    uint64_t number[EDGES];
    size_t len[EDGES];
    uint8_t edge[EDGES][LONGEST_EDGE];
    size_t pack_len;
    uint8_t pack[LONGEST_PACK];
} Task;

/* The work that is timed, once by the library and once by plain C. Not static, so that each keeps its name. */
#define WORK(by)                                                                                                       \
    void by##_counts(const Task *task)                                                                                 \
    {                                                                                                                  \
        uint64_t count;                                                                                                \
        for (int i = 0; i < COUNTS; i++)                                                                               \
            by##_count(task->block, BLOCK_LENGTH, &count);                                                             \
    }                                                                                                                  \
    void by##_numbers(const Task *task)                                                                                \
    {                                                                                                                  \
        uint64_t number;                                                                                               \
        for (int i = 0; i < EDGES; i++)                                                                                \
            by##_number(task->block, BLOCK_LENGTH, task->edge[i], task->len[i], &number);                              \
    }                                                                                                                  \
    void by##_builds(const Task *task)                                                                                 \
    {                                                                                                                  \
        uint8_t edge[LONGEST_EDGE];                                                                                    \
        size_t len;                                                                                                    \
        for (int i = 0; i < EDGES; i++)                                                                                \
            by##_build(task->block, BLOCK_LENGTH, task->number[i], edge, sizeof edge, &len);                           \
    }                                                                                                                  \
    void by##_packs(const Task *task)                                                                                  \
    {                                                                                                                  \
        uint8_t pack[LONGEST_PACK];                                                                                    \
        size_t len;                                                                                                    \
        by##_pack_write(task->block, BLOCK_LENGTH, task->number, EDGES, pack, sizeof pack, &len);                      \
    }                                                                                                                  \
    void by##_lists(const Task *task)                                                                                  \
    {                                                                                                                  \
        uint64_t numbers[EDGES];                                                                                       \
        size_t count;                                                                                                  \
        by##_pack_numbers(task->pack, task->pack_len, numbers, EDGES, &count);                                         \
    }

WORK(edges)
WORK(plain)

typedef void Work(const Task *task);

/* Behind the operations one ratio more, not against plain C: a whole pack numbered, against its edges one by one. */
static const struct {
    const char *name;
    int calls;
    Work *library, *plain;
} operation[RATIOS] = {
    {"count", COUNTS, edges_counts, plain_counts}, {"number", EDGES, edges_numbers, plain_numbers},
    {"build", EDGES, edges_builds, plain_builds},  {"pack", 1, edges_packs, plain_packs},
    {"list", 1, edges_lists, plain_lists},         {"list/numbers", 1, edges_lists, edges_numbers},
};

/* Tasks */

static void differs(void)
{
    fprintf(stderr, "bench: the library doesn't answer as plain C does; run the tests\n");
    exit(1);
}

/* A ratio of something that isn't done right is worth nothing. */
static void check_task(const Task *task)
{
    for (int i = 0; i < EDGES; i++) {
        uint64_t number;
        uint8_t edge[LONGEST_EDGE];
        size_t len;
        if (edges_number(task->block, BLOCK_LENGTH, task->edge[i], task->len[i], &number) != 0 ||
            number != task->number[i] || edges_build(task->block, BLOCK_LENGTH, number, edge, sizeof edge, &len) != 0 ||
            len != task->len[i] || memcmp(edge, task->edge[i], len) != 0)
            differs();
    }
    uint64_t numbers[EDGES];
    size_t count;
    if (edges_pack_numbers(task->pack, task->pack_len, numbers, EDGES, &count) != 0 || count != EDGES ||
        memcmp(numbers, task->number, sizeof numbers) != 0)
        differs();
}

static void make_task(Task *task, Block block)
{
    uint64_t count;
    memcpy(task->block, block.bytes, BLOCK_LENGTH);
    if (plain_count(task->block, BLOCK_LENGTH, &count) != 0 || count == 0)
        abort();
    for (int i = 0; i < EDGES; i++) {
        task->number[i] = below(count);
        plain_build(task->block, BLOCK_LENGTH, task->number[i], task->edge[i], LONGEST_EDGE, &task->len[i]);
    }
    if (plain_pack_write(task->block, BLOCK_LENGTH, task->number, EDGES, task->pack, sizeof task->pack,
                         &task->pack_len) != 0)
        abort();
    check_task(task);
}

/* Families 6 and 7: drawn step sets and ends, three in four with n = 32. */
static int directed_tasks(int family, Task *tasks)
{
    for (int i = 0; i < MOST_JOBS; i++) {
        uint64_t count;
        Block block;
        do
            block = fitting_job(family, &count);
        while (i % 4 == 0 ? block.bytes[1] < 12 : block.bytes[1] != 32);
        make_task(&tasks[i], block);
    }
    return MOST_JOBS;
}

/* The jobs of a family from the largest that fit down to small ones. */
static int make_tasks(int family, Task *tasks)
{
    static const uint8_t ends[6][8][2] = {
        [1] = {{33, 34}, {64, 20}, {20, 64}, {25, 25}, {40, 20}, {16, 30}, {10, 10}, {4, 4}},
        [2] = {{36, 36}, {35, 35}, {30, 30}, {25, 25}, {20, 20}, {15, 15}, {10, 10}, {5, 5}},
        [3] = {{26, 26}, {64, 14}, {14, 64}, {20, 20}, {40, 18}, {30, 12}, {8, 8}, {4, 4}},
        [4] = {{28, 28}, {27, 27}, {24, 24}, {20, 20}, {16, 16}, {12, 12}, {8, 8}, {4, 4}},
        [5] = {{45, 45}, {44, 44}, {38, 38}, {32, 32}, {26, 26}, {20, 20}, {12, 12}, {6, 6}},
    };
    draw_from(family);
    if (family >= 6)
        return directed_tasks(family, tasks);
    for (int i = 0; i < 8; i++)
        make_task(&tasks[i], lettered_block(family, ends[family][i][0], ends[family][i][1]));
    return 8;
}

/* Ratios */

/* The processor's time for this thread alone, so that other programs count as little as can be. */
static double seconds_for(Work *work, const Task *task)
{
    struct timespec from, to;
    clock_gettime(CLOCK_THREAD_CPUTIME_ID, &from);
    work(task);
    clock_gettime(CLOCK_THREAD_CPUTIME_ID, &to);
    return (double)(to.tv_sec - from.tv_sec) + 1e-9 * (double)(to.tv_nsec - from.tv_nsec);
}

static int compare(const void *left, const void *right)
{
    double a = *(const double *)left, b = *(const double *)right;
    return (a > b) - (a < b);
}

static double median(double *values)
{
    qsort(values, ROUNDS, sizeof values[0], compare);
    return values[ROUNDS / 2];
}

/* The ratio for all jobs of a family together, and that of its worst job. The two take turns at going first. */
static void print_ratio(int op, const Task *tasks, int jobs)
{
    double together[ROUNDS], job[MOST_JOBS][ROUNDS], worst = 0;
    for (int round = 0; round < ROUNDS; round++) {
        double library = 0, plain = 0;
        for (int i = 0; i < jobs; i++) {
            double first = seconds_for(round % 2 ? operation[op].library : operation[op].plain, &tasks[i]);
            double second = seconds_for(round % 2 ? operation[op].plain : operation[op].library, &tasks[i]);
            double by_library = round % 2 ? first : second, by_plain = round % 2 ? second : first;
            job[i][round] = by_library / by_plain;
            library += by_library;
            plain += by_plain;
        }
        together[round] = library / plain;
    }
    for (int i = 0; i < jobs; i++) {
        double ratio = median(job[i]);
        worst = ratio > worst ? ratio : worst;
    }
    printf("  %5.2f (%5.2f)", median(together), worst);
}

static void print_ratios(Task *tasks)
{
    printf("library / plain C, time: all jobs of the family (its worst job); median of %d rounds\n", ROUNDS);
    printf("pack: 200 edges written; list: 200 edges of a pack numbered by one call; list/numbers: that against 200 "
           "calls\n");
    printf("family");
    for (int op = 0; op < RATIOS; op++)
        printf("  %13s", operation[op].name);
    printf("\n");
    for (int family = 1; family <= 7; family++) {
        int jobs = make_tasks(family, tasks);
        printf("%6d", family);
        for (int op = 0; op < RATIOS; op++)
            print_ratio(op, tasks, jobs);
        printf("\n");
        fflush(stdout);
    }
}

static void work_once(int family, Task *tasks)
{
    int jobs = make_tasks(family, tasks);
    for (int op = 0; op < OPERATIONS; op++) {
        for (int i = 0; i < jobs; i++) {
            operation[op].library(&tasks[i]);
            operation[op].plain(&tasks[i]);
        }
        printf("%ss %d\n", operation[op].name, operation[op].calls * jobs);
    }
}

int main(int argc, char **argv)
{
    static Task tasks[MOST_JOBS];
    int family = argc > 1 ? atoi(argv[1]) : 0;
    if (family < 0 || family > 7) {
        fprintf(stderr, "usage: bench [FAMILY]\n");
        return 1;
    }
    if (family == 0)
        print_ratios(tasks);
    else
        work_once(family, tasks);
    return 0;
}
