/*
 * Field edges by number: the C interface.
 *
 * A job is a family, an end point and, for families 6 and 7, a step set. It is lent as its block of 20 bytes:
 *
 *   byte 0    family, 1 to 7
 *   byte 1    n, unsigned
 *   byte 2    m, signed
 *   byte 3    k, the number of steps in families 6 and 7, else 0
 *   byte 4    eight pairs (a unsigned, b signed), of which the first k are used; every unused byte is 0
 *
 * An edge is a string of step bytes, one a step: 'N', 'E', 'D' in families 1 to 5, '1' to '8' in families 6 and 7.
 * It isn't ended by a zero byte. The numbers of a job's edges are exactly those below its count.
 *
 * Every call returns 0 and writes its outputs, or returns a refusal number, as it is or in a result word, and leaves
 * every output as it was. Where more than one refusal would fit, the call gives the first in the order that stands
 * with it. Bytes and numbers go to the front of the lent output; what lies behind the reported length is left as it
 * was.
 *
 * A null pointer with length 0 is an empty slice. Every other pointer is to as many bytes (or numbers) as are said
 * to be there. Lent buffers don't overlap, single outputs included.
 *
 * Link with libedges.a, which `tools/archive` writes to target/staticlib/.
 */
#ifndef EDGES_H
#define EDGES_H

#include <stddef.h>
#include <stdint.h>

#ifdef __cplusplus
extern "C" {
#endif

enum edges_refusal {
    EDGES_FORM = 1,         /* block not 20 bytes, family not 1 to 7, or an unused byte not zero */
    EDGES_SIZE = 2,         /* a value outside the family's ranges, or m other than n in families 2, 4, 5 */
    EDGES_TWIN = 3,         /* two used pairs are equal */
    EDGES_OVER = 4,         /* the count exceeds 18446744073709551615 */
    EDGES_NOT_AN_EDGE = 5,  /* the bytes aren't a valid edge of the job */
    EDGES_BEYOND = 6,       /* a number is not below the count */
    EDGES_ROOM = 7,         /* the output is shorter than this answer */
    EDGES_PACK = 8,         /* length, mark, edge count or offsets break the pack's layout */
    EDGES_NO_SUCH_EDGE = 9, /* i is not below the pack's edge count */
    EDGES_MANY = 10,        /* more than 200 numbers to pack */
    EDGES_KIND = 11         /* dip asked in families 1 to 5 */
};

/*
 * A result word, for a call whose refusal says more than its number: 0, or the refusal number in bits 0 to 7, a place
 * in bits 8 to 15 (no call gives one yet: 0), the index of an edge in a pack in bits 16 to 23, and 0 above.
 *
 *     edges_result r = edges_pack_numbers(pack, pack_len, numbers, 200, &count);
 *     if (EDGES_REFUSAL(r) == EDGES_NOT_AN_EDGE) printf("edge %u isn't valid\n", EDGES_INDEX(r));
 */
typedef uint32_t edges_result;

#define EDGES_REFUSAL(r) ((unsigned)(r)&255u)
#define EDGES_PLACE(r) (((unsigned)(r) >> 8) & 255u)
#define EDGES_INDEX(r) (((unsigned)(r) >> 16) & 255u)

enum edges_limits {
    EDGES_BLOCK_LENGTH = 20,
    EDGES_LONGEST_EDGE = 128,  /* bytes that hold any edge of any job */
    EDGES_PACK_EDGES = 200,    /* edges in a pack, at most */
    EDGES_LONGEST_PACK = 32768 /* bytes that hold any pack */
};

/*
 * How many edges the job has. 0 is an answer.
 * Writes *count. Refuses 1, 2, 3, 4.
 */
uint8_t edges_count(const uint8_t *block, size_t block_len, uint64_t *count);

/*
 * The least number of bits that holds every number below the count; 0 for counts 0 and 1.
 * Writes *width, 0 to 64. Refuses 1, 2, 3, 4.
 */
uint8_t edges_width(const uint8_t *block, size_t block_len, uint8_t *width);

/*
 * The number of an edge: how many of the job's edges stand before it.
 * Writes *number. Refuses 1, 2, 3, 4, 5.
 */
uint8_t edges_number(const uint8_t *block, size_t block_len, const uint8_t *edge, size_t edge_len, uint64_t *number);

/*
 * The edge of a number.
 * Writes the edge to the front of out, and its length to *len. Refuses 1, 2, 3, 4, 6, 7.
 */
uint8_t edges_build(const uint8_t *block, size_t block_len, uint64_t number, uint8_t *out, size_t out_len, size_t *len);

/*
 * Families 6 and 7: has a step with b below 0 a later step with b above 0?
 * Writes *dips, 1 or 0; if 1 also *place, that of the first such later step, counted from 0. If 0, *place stays as it
 * was. Refuses 1, 2, 3, 4, 11, 5.
 */
uint8_t edges_dip(const uint8_t *block, size_t block_len, const uint8_t *edge, size_t edge_len, uint8_t *dips,
                  size_t *place);

/*
 * The earlier of two edges of one job, in the order of their numbers; of equal ones the first.
 * Writes *second: 1 if it is b, 0 if it is a. Refuses 1, 2, 3, 4, then 5 for a, then 5 for b.
 */
uint8_t edges_earlier(const uint8_t *block, size_t block_len, const uint8_t *a, size_t a_len, const uint8_t *b,
                      size_t b_len, uint8_t *second);

/*
 * An edge pack of the edges of n lent numbers, in their order; equal numbers may stand among them.
 * A pack is little-endian: "EDG1", the job block at 4, the edge count c at 24 (two bytes), c+1 offsets of two bytes at
 * 26, measured from the pack's start, then the step bytes. Edge i reaches from offset i up to offset i+1.
 * Writes the pack to the front of out, and its length to *len. Refuses 1, 2, 3, 4, 10, 6, 7.
 */
uint8_t edges_pack_write(const uint8_t *block, size_t block_len, const uint64_t *numbers, size_t n, uint8_t *out,
                         size_t out_len, size_t *len);

/*
 * Edge i of a pack, as a part of the pack: from *start up to, not including, *end. Every edge of the pack is checked.
 * Writes *start and *end. Refuses 8, 1, 2, 3, 4, 5, 9.
 */
uint8_t edges_pack_edge(const uint8_t *pack, size_t pack_len, size_t i, size_t *start, size_t *end);

/*
 * The first edge of a pack that equals an earlier one, with the earliest it equals. Every edge is checked.
 * Writes *found, 1 or 0; if 1 also *later and *earlier, the places of the two, counted from 0. If 0, they stay as they
 * were. Refuses 8, 1, 2, 3, 4, 5.
 */
uint8_t edges_pack_repeat(const uint8_t *pack, size_t pack_len, uint8_t *found, size_t *later, size_t *earlier);

/*
 * The numbers of all edges of a pack, each as edges_number gives it for that edge alone; the counts are worked out
 * once. Writes c numbers to the front of numbers, where c is the pack's edge count, and c to *count. Refuses 8, 1, 2,
 * 3, 4, 5 with the index of the first edge that isn't valid, 7 if n is below c.
 */
edges_result edges_pack_numbers(const uint8_t *pack, size_t pack_len, uint64_t *numbers, size_t n, size_t *count);

#ifdef __cplusplus
}
#endif

#endif
