/*
 * Jobs by definition. For small ones every string of steps is walked, those that are valid edges are kept, and these
 * are sorted by document 01's order: their places in the list are then their numbers, with no recurrence and no rule
 * behind them. For jobs of any size the strings that walk to each point are counted, without being listed.
 */
#ifndef BRUTE_H
#define BRUTE_H

#include "plain.h"

enum { BRUTE_LONGEST = 16, BRUTE_MOST = 8192 };

typedef struct {
    uint8_t step[BRUTE_LONGEST];
    size_t len;
} Edge;

typedef struct {
    size_t count;
    Edge edge[BRUTE_MOST];
} List;

/* All valid edges of the job in order. Only for jobs with at most BRUTE_MOST edges, of at most BRUTE_LONGEST steps. */
void brute_list(const Job *job, List *list);

/* Is it one of them? */
bool brute_holds(const List *list, const uint8_t *edge, size_t edge_len);

/* How many valid edges the job has, or OVER. */
uint8_t brute_count(const Job *job, uint64_t *count);

#endif
