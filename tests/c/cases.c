#include "cases.h"

#include <stdlib.h>
#include <string.h>

#include "draw.h"

/* Blocks */

Block lettered_block(int family, int n, int m)
{
    Block block = {.len = BLOCK_LENGTH};
    block.bytes[0] = (uint8_t)family;
    block.bytes[1] = (uint8_t)n;
    block.bytes[2] = (uint8_t)m;
    return block;
}

Block directed_block(int family, int n, int m, int k, int widest)
{
    Block block = lettered_block(family, n, m);
    uint8_t(*pair)[2] = (void *)(block.bytes + 4);
    block.bytes[3] = (uint8_t)k;
    for (int i = 0; i < k;) {
        pair[i][0] = (uint8_t)between(1, widest);
        pair[i][1] = (uint8_t)between(-3, 3);
        int j = 0;
        while (memcmp(pair[j], pair[i], 2) != 0)
            j++;
        i += j == i;
    }
    return block;
}

/* The largest m for which (n,m) of family 1 or 3 isn't Over. */
static int largest_m(int family, int n)
{
    static int known[4][65];
    uint64_t count;
    int *m = &known[family][n];
    if (*m == 0) {
        *m = 64;
        while (plain_count(lettered_block(family, n, *m).bytes, BLOCK_LENGTH, &count) == OVER)
            --*m;
    }
    return *m;
}

static Block rectangle_job(int family)
{
    int n = between(0, 64), m;
    switch (below(5)) {
    case 0:
        return lettered_block(family, between(0, 6), between(0, 6));
    case 1:
        m = largest_m(family, n) + between(-2, 1);
        return lettered_block(family, n, m < 0 ? 0 : m > 64 ? 64 : m);
    case 2:
        m = n;
        n = between(0, largest_m(family, m));
        return lettered_block(family, n, m);
    default:
        return lettered_block(family, n, between(0, largest_m(family, n)));
    }
}

static Block arched_job(int family)
{
    static const int largest[6] = {[2] = 36, [4] = 28, [5] = 45};
    int n = one_in(3) ? between(0, 6) : one_in(8) ? largest[family] + between(-1, 1) : between(0, largest[family]);
    if (one_in(20))
        n = between(0, 64);
    return lettered_block(family, n, n);
}

/* The height of a drawn walk that stops at column n or before; family 7 turns back at the fence where it can. One step
 * is a favourite: where it is a steep one, counts run from 1 to Over as the walk strays from it. */
static int walked_height(const Block *block, int *n)
{
    int x = 0, y = 0, k = block->bytes[3];
    uint64_t favourite = below(k), strays = 1 + below(8);
    for (int tries = 0; tries < 200 && x < *n; tries++) {
        const uint8_t *pair = block->bytes + 4 + 2 * (one_in(strays) ? below(k) : favourite);
        int dy = (int8_t)pair[1];
        if (x + pair[0] > *n || (block->bytes[0] == 7 && y + dy < 0))
            continue;
        x += pair[0];
        y += dy;
    }
    *n = x;
    return y;
}

static Block directed_job(int family)
{
    int n = one_in(4) ? between(0, 6) : between(0, 32);
    Block block = directed_block(family, n, 0, between(1, one_in(3) ? 3 : 8), 3);
    if (one_in(3)) /* one column a step, where counts are largest */
        block = directed_block(family, n, 0, between(1, 7), 1);
    if (one_in(6)) {
        block.bytes[2] = (uint8_t)(one_in(2) ? between(-96, 96) : between(-8, 8));
        return block;
    }
    block.bytes[2] = (uint8_t)walked_height(&block, &n);
    block.bytes[1] = (uint8_t)n;
    return block;
}

Block any_job(int family)
{
    if (family == 0)
        family = between(1, 7);
    if (family >= 6)
        return directed_job(family);
    return family == 1 || family == 3 ? rectangle_job(family) : arched_job(family);
}

Block fitting_job(int family, uint64_t *count)
{
    for (;;) {
        Block block = any_job(family);
        if (plain_count(block.bytes, block.len, count) == 0 && *count > 0)
            return block;
    }
}

uint64_t any_number(uint64_t count)
{
    switch (below(12)) {
    case 0:
        return 0;
    case 1:
        return count - 1; /* 2^64-1 if the count is 0 */
    case 2:
        return count;
    case 3:
        return UINT64_MAX - below(3);
    case 4:
        return draw();
    case 5:
        return count + below(3) - 1;
    default:
        return count == 0 ? draw() : below(count);
    }
}

/* Family, n and m. */
static void damage_head(uint8_t *bytes)
{
    bool directed = bytes[0] >= 6;
    int outside = directed ? 97 : 65, below_it = directed ? -97 : -1;
    switch (below(6)) {
    case 0:
        bytes[0] = one_in(2) ? (uint8_t)(8 * below(2)) : (uint8_t)draw();
        break;
    case 1:
        bytes[0] = (uint8_t)between(1, 7);
        break;
    case 2:
        bytes[1] = one_in(2) ? (uint8_t)draw() : (uint8_t)(directed ? 33 : 65);
        break;
    case 3:
        bytes[2] = (uint8_t)(one_in(3) ? (int)draw() : one_in(2) ? outside : below_it);
        break;
    case 4:
        bytes[2] += (uint8_t)(1 - 2 * between(0, 1));
        break;
    default:
        bytes[below(3)] ^= (uint8_t)(1u << below(8));
    }
}

/* k and the pairs, used or not. */
static void damage_steps(uint8_t *bytes)
{
    int k = bytes[0] < 6 ? 0 : bytes[3] < 8 ? bytes[3] : 8;
    int unused = bytes[0] < 6 ? 3 : k < 8 ? 4 + 2 * k : 19;
    switch (below(7)) {
    case 0:
        bytes[between(3, 19)] = (uint8_t)draw();
        break;
    case 1: /* the first unused byte, or the last */
        bytes[one_in(2) ? 19 : unused] = (uint8_t)between(1, 255);
        break;
    case 2:
        bytes[3] = one_in(2) ? (uint8_t)draw() : (uint8_t)(9 * below(2));
        break;
    case 3: /* a of a pair */
        bytes[4 + 2 * below(8)] = (uint8_t)(4 * below(2));
        break;
    case 4: /* b of a pair */
        bytes[5 + 2 * below(8)] = (uint8_t)(one_in(2) ? 4 - 8 * (int)below(2) : (int)draw());
        break;
    default: /* twins */
        if (k > 1) {
            int i = between(1, k - 1);
            memcpy(bytes + 4 + 2 * i, bytes + 4 + 2 * below(i), 2);
        }
    }
}

void damage_block(Block *block)
{
    if (one_in(30)) {
        fill_with_draws(block->bytes, BLOCK_LENGTH);
        block->bytes[0] %= 8;
        return;
    }
    do
        if (one_in(12)) /* shorter or longer, by what looks like more of it */
            block->len = one_in(2) ? below(LONGEST_BLOCK) : 19 + 2 * below(2);
        else if (one_in(2))
            damage_head(block->bytes);
        else
            damage_steps(block->bytes);
    while (one_in(3));
}

/* Edges */

void any_edge(const Block *block, uint64_t count, Bytes *edge)
{
    uint64_t number = one_in(10) ? count - 1 : one_in(10) ? 0 : below(count);
    if (plain_build(block->bytes, block->len, number, edge->bytes, LONGEST_CASE, &edge->len) != 0)
        abort();
}

static void shuffle(uint8_t *bytes, size_t len)
{
    for (size_t i = len; i > 1; i--) {
        size_t j = below(i);
        uint8_t moved = bytes[i - 1];
        bytes[i - 1] = bytes[j];
        bytes[j] = moved;
    }
}

static void insert(Bytes *bytes, size_t at, uint8_t byte)
{
    memmove(bytes->bytes + at + 1, bytes->bytes + at, bytes->len - at);
    bytes->bytes[at] = byte;
    bytes->len++;
}

/* A byte that is a step of some family, or no step at all. */
static uint8_t any_step(void)
{
    static const uint8_t steps[] = "NED123456789";
    return one_in(8) ? (uint8_t)draw() : steps[below(sizeof steps - 1)];
}

/* The edge over and over again, or its first step and then its last: arches in arches, far more than any path has. */
static void make_long(Bytes *edge)
{
    size_t once = edge->len, len = below(LONGEST_CASE);
    uint8_t first = edge->bytes[0], last = edge->bytes[once - 1];
    if (one_in(2)) {
        memset(edge->bytes, first, len / 2);
        memset(edge->bytes + len / 2, last, len - len / 2);
    } else {
        for (size_t i = once; i < len; i++)
            edge->bytes[i] = edge->bytes[i - once];
    }
    edge->len = len;
}

static void take_out(Bytes *bytes, size_t at)
{
    memmove(bytes->bytes + at, bytes->bytes + at + 1, bytes->len - at - 1);
    bytes->len--;
}

void damage_edge(Bytes *edge)
{
    uint8_t *bytes = edge->bytes;
    size_t at = edge->len > 0 ? below(edge->len) : 0;
    switch (edge->len == 0 ? 0 : below(10)) {
    case 0:
        insert(edge, one_in(2) ? at : edge->len, any_step());
        break;
    case 1:
        take_out(edge, at);
        break;
    case 2:
        bytes[one_in(3) ? edge->len - 1 : at] = any_step();
        break;
    case 3:
        bytes[at] ^= (uint8_t)(1u << below(8));
        break;
    case 4:
        edge->len = one_in(2) ? 0 : at;
        break;
    case 5: /* one step twice, another not at all */
        insert(edge, below(edge->len), bytes[at]);
        take_out(edge, below(edge->len));
        break;
    case 6:
        if (one_in(8))
            make_long(edge);
        else
            insert(edge, edge->len, one_in(2) ? 0 : any_step());
        break;
    default:
        shuffle(bytes, edge->len);
    }
}

/* Packs */

static size_t get_two(const uint8_t *at)
{
    return at[0] + 256u * at[1];
}

static void put_two(uint8_t *at, size_t value)
{
    at[0] = (uint8_t)value;
    at[1] = (uint8_t)(value >> 8);
}

/* Makes it longer or shorter by what lies at its end; now and then the last offset follows. */
static void stretch_pack(Bytes *pack, uint8_t *last_offset)
{
    static const size_t lengths[] = {0, 4, 24, 26, 27, 28, 29, 32767, 32768, 32769, 40000};
    size_t len = one_in(2) ? lengths[below(sizeof lengths / sizeof lengths[0])] : pack->len + (size_t)between(-2, 2);
    if (len > pack->len)
        memset(pack->bytes + pack->len, 'E', len - pack->len);
    pack->len = len;
    if (one_in(2))
        put_two(last_offset, len);
}

/* The last edge once more, with all else as it must be: right up to 200 edges, wrong from 201. */
static void one_edge_more(Bytes *pack, size_t c)
{
    size_t front = PACK_HEADER + 2 * c, last = c == 0 ? front : get_two(pack->bytes + 24 + 2 * c);
    size_t edge_len = pack->len - last;
    memmove(pack->bytes + front + 2, pack->bytes + front, pack->len - front);
    memcpy(pack->bytes + pack->len + 2, pack->bytes + last + 2, edge_len);
    for (size_t i = 0; i <= c; i++)
        put_two(pack->bytes + 26 + 2 * i, get_two(pack->bytes + 26 + 2 * i) + 2);
    pack->len += 2 + edge_len;
    put_two(pack->bytes + 26 + 2 * (c + 1), pack->len);
    put_two(pack->bytes + 24, c + 1);
}

static void damage_layout(Bytes *pack, size_t c)
{
    uint8_t *offset = pack->bytes + 26 + 2 * below(c + 1), *last_offset = pack->bytes + 26 + 2 * c;
    switch (c == PACK_EDGES && one_in(3) ? 7 : below(8)) {
    case 0:
        pack->bytes[below(4)] ^= (uint8_t)(1u << below(8));
        break;
    case 1:
        put_two(pack->bytes + 24, one_in(2) ? c + 1 - 2 * below(2) : one_in(2) ? c + 256 * below(3) : draw());
        break;
    case 2: /* an edge less or more, with nothing else moved */
        put_two(pack->bytes + 24, one_in(2) ? 201 : below(202));
        break;
    case 3:
        put_two(offset, get_two(offset) + (size_t)between(-2, 2));
        break;
    case 4:
        put_two(offset, one_in(2) ? draw() : pack->len);
        break;
    case 5:
        pack->bytes[below(26 + 2 * c + 2)] ^= (uint8_t)(1u << below(8));
        break;
    case 7:
        one_edge_more(pack, c);
        break;
    default:
        stretch_pack(pack, last_offset);
    }
}

static void damage_edges_of_pack(Bytes *pack, size_t c)
{
    size_t front = PACK_HEADER + 2 * c, i = below(c + 1);
    uint8_t *offset = pack->bytes + 26 + 2 * i;
    if (pack->len <= front)
        return;
    switch (below(4)) {
    case 0: /* an empty edge beside one of double length */
        if (i > 0 && i < c)
            put_two(offset, get_two(offset - 2));
        break;
    case 1:
        if (i > 0 && i < c && get_two(offset) > get_two(offset - 2))
            put_two(offset, get_two(offset) - 1);
        break;
    case 2: /* the steps of one edge in another order */
        if (i < c)
            shuffle(pack->bytes + get_two(offset), get_two(offset + 2) - get_two(offset));
        break;
    default:
        pack->bytes[front + below(pack->len - front)] = any_step();
    }
}

static void damage_block_of_pack(Bytes *pack)
{
    Block block = {.len = BLOCK_LENGTH};
    uint64_t count;
    memcpy(block.bytes, pack->bytes + 4, BLOCK_LENGTH);
    if (one_in(5)) {
        do
            block = any_job(0);
        while (plain_count(block.bytes, block.len, &count) != OVER);
    } else {
        damage_block(&block);
    }
    memcpy(pack->bytes + 4, block.bytes, BLOCK_LENGTH);
}

void damage_pack(Bytes *pack)
{
    size_t c = get_two(pack->bytes + 24);
    int kind = between(1, 8); /* mostly one kind of damage, now and then more than one */
    if (kind <= 4 || kind == 8)
        damage_edges_of_pack(pack, c);
    if (kind == 5 || kind == 6 || kind == 8)
        damage_block_of_pack(pack);
    if (kind == 7 || one_in(10))
        damage_layout(pack, c);
}
