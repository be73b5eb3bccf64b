/* Drawn jobs, edges and packs, and ways to damage them. */
#ifndef CASES_H
#define CASES_H

#include "plain.h"

/* Room for an edge or a pack that is longer than any may be. */
enum { LONGEST_CASE = 60000, LONGEST_BLOCK = 64 };

typedef struct {
    size_t len;
    uint8_t bytes[LONGEST_CASE];
} Bytes;

typedef struct {
    size_t len; /* 20 unless damaged */
    uint8_t bytes[LONGEST_BLOCK];
} Block;

/* The block of families 1 to 5. */
Block lettered_block(int family, int n, int m);

/* The block of families 6 and 7 with k drawn steps of a up to widest, ending at (n,m). With widest 1 there are seven.
 */
Block directed_block(int family, int n, int m, int k, int widest);

/* The block of a family (of any family if 0) that passes 1 to 3: short and long, with counts 0, 1 and up to the largest
 * that fits, and now and then beyond. */
Block any_job(int family);

/* The same with a count from 1 to 2^64-1, which is handed back too. */
Block fitting_job(int family, uint64_t *count);

/* A number to ask for: 0, count-1, count, 2^64-1 and neighbours of those, mostly any below the count. */
uint64_t any_number(uint64_t count);

void damage_block(Block *block);

/* An edge of a job whose count isn't 0. */
void any_edge(const Block *block, uint64_t count, Bytes *edge);

/* May leave it valid, as where two equal steps change places. */
void damage_edge(Bytes *edge);

/* May leave it valid too. */
void damage_pack(Bytes *pack);

#endif
