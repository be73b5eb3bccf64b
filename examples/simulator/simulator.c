/*
 * A bench in small: for each job it draws cases by number, builds their edges, drives them on a grid, packs them for
 * the next bench, reads the pack, asks all their numbers back by one call, and says how much of the job has been
 * covered.
 *
 * Usage: simulator [SEED]
 */
#include <stdio.h>
#include <stdlib.h>
#include <string.h>

#include "../../include/edges.h"

enum { CASES = EDGES_PACK_EDGES };

typedef struct {
    uint64_t number;
    uint8_t edge[EDGES_LONGEST_EDGE];
    size_t len;
} Case;

static const uint8_t jobs[][EDGES_BLOCK_LENGTH] = {
    {1, 6, 4},                                       /* family, n, m */
    {2, 7, 7},                                       /* no edge crosses the diagonal */
    {3, 12, 9},                                      /* N, E and D */
    {4, 5, 5},                                       /* the same, below the diagonal */
    {5, 10, 10},                                     /* N and E two cells long */
    {6, 8, 1, 3, 1, 255, 1, 0, 1, 1},                /* three steps: (1,-1), (1,0), (1,1) */
    {7, 32, 3, 5, 1, 254, 1, 255, 1, 0, 2, 1, 3, 3}, /* five steps, never below the base line */
    {6, 4, 13, 2, 1, 3, 2, 253},                     /* no edge gets there */
};

static void stop(const char *what, int refusal)
{
    fprintf(stderr, refusal == 0 ? "simulator: %s\n" : "simulator: %s refused %d\n", what, refusal);
    exit(1);
}

/* 64 drawn bits (xorshift64*). */
static uint64_t draw(uint64_t *state)
{
    *state ^= *state >> 12;
    *state ^= *state << 25;
    *state ^= *state >> 27;
    return *state * 0x2545f4914f6cdd1d;
}

/* A number below the count, each as likely as any other: bits as many as the width says, until they are below it. */
static uint64_t draw_number(uint64_t *state, uint64_t count, uint8_t width)
{
    uint64_t number;
    do
        number = width == 0 ? 0 : draw(state) >> (64 - width);
    while (number >= count);
    return number;
}

/* What a step byte does on the grid; 0 if it is no step of the job. */
static int move(const uint8_t *job, uint8_t step, int *x, int *y)
{
    int cells = job[0] == 5 ? 2 : 1;
    if (job[0] >= 6) {
        int i = step - '1';
        if (i < 0 || i >= job[3])
            return 0;
        *x += job[4 + 2 * i];
        *y += (int8_t)job[5 + 2 * i];
    } else if (step == 'N') {
        *y += cells;
    } else if (step == 'E') {
        *x += cells;
    } else if (step == 'D' && job[0] >= 3) {
        ++*x;
        ++*y;
    } else {
        return 0;
    }
    return 1;
}

/* Drives the edge from (0,0): each point must lie in the field, the last one at the job's end. */
static void drive(const uint8_t *job, const Case *c)
{
    int x = 0, y = 0;
    for (size_t i = 0; i < c->len; i++) {
        if (!move(job, c->edge[i], &x, &y))
            stop("an edge has a byte that is no step", 0);
        if ((job[0] == 2 || job[0] == 4 || job[0] == 5) && y > x)
            stop("an edge crosses the diagonal", 0);
        if (job[0] == 7 && y < 0)
            stop("an edge falls below the base line", 0);
    }
    if (x != job[1] || y != (int8_t)job[2])
        stop("an edge misses the end", 0);
}

static void run_case(const uint8_t *job, Case *c)
{
    int refusal = edges_build(job, EDGES_BLOCK_LENGTH, c->number, c->edge, sizeof c->edge, &c->len);
    if (refusal != 0)
        stop("build", refusal);
    drive(job, c);
}

/* Hands the cases on as a pack, and reads it as the next bench would. Returns whether a case stands in it twice. */
static int hand_on(const uint8_t *job, const Case *cases)
{
    static uint8_t pack[EDGES_LONGEST_PACK];
    uint64_t numbers[CASES], back[CASES];
    size_t len, start, end, later, earlier, count;
    uint8_t found;
    for (int i = 0; i < CASES; i++)
        numbers[i] = cases[i].number;
    int refusal = edges_pack_write(job, EDGES_BLOCK_LENGTH, numbers, CASES, pack, sizeof pack, &len);
    if (refusal != 0)
        stop("pack_write", refusal);
    for (size_t i = 0; i < CASES; i++) {
        refusal = edges_pack_edge(pack, len, i, &start, &end);
        if (refusal != 0 || end - start != cases[i].len || memcmp(pack + start, cases[i].edge, end - start) != 0)
            stop("an edge didn't come back from the pack", refusal);
    }
    if (edges_pack_edge(pack, len, CASES, &start, &end) != EDGES_NO_SUCH_EDGE)
        stop("the pack has an edge too many", 0);
    edges_result result = edges_pack_numbers(pack, len, back, CASES, &count);
    if (EDGES_REFUSAL(result) == EDGES_NOT_AN_EDGE)
        fprintf(stderr, "simulator: edge %u of the pack isn't valid\n", EDGES_INDEX(result));
    if (result != 0)
        stop("pack_numbers", EDGES_REFUSAL(result));
    if (count != CASES || memcmp(back, numbers, sizeof numbers) != 0)
        stop("the numbers didn't come back from the pack", 0);
    refusal = edges_pack_repeat(pack, len, &found, &later, &earlier);
    if (refusal != 0 || (found && numbers[later] != numbers[earlier]))
        stop("pack_repeat", refusal);
    return found;
}

/* How many edges dip, in families 6 and 7. */
static int count_dips(const uint8_t *job, const Case *cases)
{
    int dipping = 0;
    for (int i = 0; i < CASES; i++) {
        uint8_t dips;
        size_t place;
        int refusal = edges_dip(job, EDGES_BLOCK_LENGTH, cases[i].edge, cases[i].len, &dips, &place);
        if (refusal != 0)
            stop("dip", refusal);
        dipping += dips;
    }
    return dipping;
}

/* qsort hands its comparison no job. */
static const uint8_t *sorted_job;

static int by_order(const void *left, const void *right)
{
    const Case *a = left, *b = right;
    uint8_t second;
    if (a->number == b->number)
        return 0;
    int refusal = edges_earlier(sorted_job, EDGES_BLOCK_LENGTH, a->edge, a->len, b->edge, b->len, &second);
    if (refusal != 0 || second != (b->number < a->number))
        stop("the earlier edge hasn't the smaller number", refusal);
    return second ? 1 : -1;
}

static void run_job(const uint8_t *job, uint64_t *state)
{
    static Case cases[CASES];
    uint64_t count;
    uint8_t width;
    int refusal = edges_count(job, EDGES_BLOCK_LENGTH, &count);
    if (refusal != 0 || (refusal = edges_width(job, EDGES_BLOCK_LENGTH, &width)) != 0)
        stop("count", refusal);
    printf("family %d end %d %d count %llu: ", job[0], job[1], (int8_t)job[2], (unsigned long long)count);
    if (count == 0) {
        printf("nothing to drive\n");
        return;
    }
    for (int i = 0; i < CASES; i++) {
        cases[i].number = draw_number(state, count, width);
        run_case(job, &cases[i]);
    }
    int repeats = hand_on(job, cases), different = 1;
    sorted_job = job;
    qsort(cases, CASES, sizeof cases[0], by_order);
    for (int i = 1; i < CASES; i++)
        different += cases[i].number != cases[i - 1].number;
    if (repeats != (different < CASES))
        stop("the pack's repeat isn't what the numbers say", 0);
    printf("%d driven, %d different, %.3g %% covered", CASES, different, 100.0 * different / (double)count);
    if (job[0] >= 6)
        printf(", %d dip", count_dips(job, cases));
    printf("\n");
}

int main(int argc, char **argv)
{
    uint64_t state = argc > 1 ? strtoull(argv[1], NULL, 10) | 1 : 1;
    for (size_t i = 0; i < sizeof jobs / sizeof jobs[0]; i++)
        run_job(jobs[i], &state);
    return 0;
}
