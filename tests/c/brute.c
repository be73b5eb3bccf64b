#include "brute.h"

#include <stdio.h>
#include <stdlib.h>
#include <string.h>

/* Goes on from a string that has led to (x,y). No step leads back in x, nor in families 1 to 5 in y, so a string that
 * has passed the end needn't be gone on with. */
static void walk_on(const Job *job, List *list, Edge *string, int x, int y)
{
    if (x == job->n && y == job->m) {
        if (list->count == BRUTE_MOST) {
            fprintf(stderr, "brute: more edges than there is room for\n");
            exit(2);
        }
        list->edge[list->count++] = *string;
    }
    for (int i = 0; i < job->steps; i++) {
        Step step = job->step[i];
        bool passed = x + step.dx > job->n || (job->family <= 5 && y + step.dy > job->m);
        if (passed || !plain_stays(job, x + step.dx, y + step.dy))
            continue;
        if (string->len == BRUTE_LONGEST) {
            fprintf(stderr, "brute: an edge longer than there is room for\n");
            exit(2);
        }
        string->step[string->len++] = step.letter;
        walk_on(job, list, string, x + step.dx, y + step.dy);
        string->len--;
    }
}

/* qsort hands its comparison no job. */
static const Job *sorted_job;

static int compare(const void *left, const void *right)
{
    const Edge *a = left, *b = right;
    return (int)plain_before(sorted_job, b->step, b->len, a->step, a->len) -
           (int)plain_before(sorted_job, a->step, a->len, b->step, b->len);
}

void brute_list(const Job *job, List *list)
{
    Edge string = {{0}, 0};
    list->count = 0;
    walk_on(job, list, &string, 0, 0);
    sorted_job = job;
    qsort(list->edge, list->count, sizeof list->edge[0], compare);
}

bool brute_holds(const List *list, const uint8_t *edge, size_t edge_len)
{
    for (size_t i = 0; i < list->count; i++)
        if (list->edge[i].len == edge_len && memcmp(list->edge[i].step, edge, edge_len) == 0)
            return true;
    return false;
}

enum { COLUMNS = 65, LOWEST = -96, HEIGHTS = 193 };

typedef unsigned __int128 Strings;

/* Each string goes on from its point by every step that stays; more than 2^64 strings stay at that. */
uint8_t brute_count(const Job *job, uint64_t *count)
{
    static Strings strings[COLUMNS][HEIGHTS];
    const Strings too_many = (Strings)1 << 64;
    int lowest = job->family <= 5 ? 0 : LOWEST, highest = job->family <= 5 ? job->m : -LOWEST;
    memset(strings, 0, sizeof strings);
    strings[0][-LOWEST] = 1;
    for (int x = 0; x <= job->n; x++)
        for (int y = lowest; y <= highest; y++)
            for (int i = 0; i < job->steps; i++) {
                int to_x = x + job->step[i].dx, to_y = y + job->step[i].dy;
                if (to_x > job->n || to_y < lowest || to_y > highest || !plain_stays(job, to_x, to_y))
                    continue;
                Strings *to = &strings[to_x][to_y - LOWEST];
                *to += strings[x][y - LOWEST];
                if (*to > too_many)
                    *to = too_many;
            }
    *count = (uint64_t)strings[job->n][job->m - LOWEST];
    return strings[job->n][job->m - LOWEST] == too_many ? OVER : 0;
}
