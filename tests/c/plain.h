/*
 * The ten calls of edges.h once more, in plain C written from documents 01 and 02 alone: tables filled by their
 * recurrences, edges read and built by their rules. Nothing here is taken from the library, and nothing is tuned; the
 * library is held against it, and it is held against brute.h.
 */
#ifndef PLAIN_H
#define PLAIN_H

#include <stdbool.h>
#include <stddef.h>
#include <stdint.h>

enum { FORM = 1, SIZE, TWIN, OVER, NOT_AN_EDGE, BEYOND, ROOM, PACK, NO_SUCH_EDGE, MANY, KIND };

enum { BLOCK_LENGTH = 20, PACK_HEADER = 28, PACK_EDGES = 200, LONGEST_EDGE = 128, LONGEST_PACK = 32768 };

typedef struct {
    uint8_t letter;
    int dx, dy;
} Step;

/* A row of document 01's table of families. The steps stand in the order of their letters: N, E, D or 1 to k. */
typedef struct {
    int family;
    int n, m; /* the end */
    int steps;
    Step step[8];
} Job;

/* Refusals 1, 2 and 3, or 0 and the job. */
uint8_t plain_job(const uint8_t *block, size_t block_len, Job *job);

/* May an edge of the job pass here? */
bool plain_stays(const Job *job, long x, long y);

/* The step with this letter, or null. */
const Step *plain_step(const Job *job, uint8_t letter);

bool plain_valid(const Job *job, const uint8_t *edge, size_t edge_len);

/* Does valid edge a stand before valid edge b? By document 01's order alone: no count and no number is in it. */
bool plain_before(const Job *job, const uint8_t *a, size_t a_len, const uint8_t *b, size_t b_len);

uint8_t plain_count(const uint8_t *block, size_t block_len, uint64_t *count);
uint8_t plain_width(const uint8_t *block, size_t block_len, uint8_t *width);
uint8_t plain_number(const uint8_t *block, size_t block_len, const uint8_t *edge, size_t edge_len, uint64_t *number);
uint8_t plain_build(const uint8_t *block, size_t block_len, uint64_t number, uint8_t *out, size_t out_len, size_t *len);
uint8_t plain_dip(const uint8_t *block, size_t block_len, const uint8_t *edge, size_t edge_len, uint8_t *dips,
                  size_t *place);
uint8_t plain_earlier(const uint8_t *block, size_t block_len, const uint8_t *a, size_t a_len, const uint8_t *b,
                      size_t b_len, uint8_t *second);
uint8_t plain_pack_write(const uint8_t *block, size_t block_len, const uint64_t *numbers, size_t n, uint8_t *out,
                         size_t out_len, size_t *len);
uint8_t plain_pack_edge(const uint8_t *pack, size_t pack_len, size_t i, size_t *start, size_t *end);
uint8_t plain_pack_repeat(const uint8_t *pack, size_t pack_len, uint8_t *found, size_t *later, size_t *earlier);

/* Returns a result word: the refusal number, and 65536 times the index of the edge that isn't valid. */
uint32_t plain_pack_numbers(const uint8_t *pack, size_t pack_len, uint64_t *numbers, size_t n, size_t *count);

#endif
