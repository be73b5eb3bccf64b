/*
 * Holds every call of libedges.a against plain C: the same answer, the same bytes, and nothing else touched.
 * Usage: test [SEED]
 */
#include <stdio.h>
#include <stdlib.h>
#include <string.h>

#include "../../include/edges.h"
#include "brute.h"
#include "cases.h"
#include "draw.h"
#include "lend.h"

/* One call each, on lent memory, compared with plain C */

static void check_count(const Block *block)
{
    begin("edges_count");
    const uint8_t *lent = lend("block", block->bytes, block->len);
    void *count = take("count", sizeof(uint64_t));
    finish(edges_count(lent, block->len, count), plain_count(block->bytes, block->len, want(0)));
}

static void check_width(const Block *block)
{
    begin("edges_width");
    const uint8_t *lent = lend("block", block->bytes, block->len);
    void *width = take("width", sizeof(uint8_t));
    finish(edges_width(lent, block->len, width), plain_width(block->bytes, block->len, want(0)));
}

static void check_number(const Block *block, const uint8_t *edge, size_t edge_len)
{
    begin("edges_number");
    const uint8_t *lent = lend("block", block->bytes, block->len);
    const uint8_t *lent_edge = lend("edge", edge, edge_len);
    void *number = take("number", sizeof(uint64_t));
    finish(edges_number(lent, block->len, lent_edge, edge_len, number),
           plain_number(block->bytes, block->len, edge, edge_len, want(0)));
}

static void check_build(const Block *block, uint64_t number, size_t out_len)
{
    begin("edges_build");
    const uint8_t *lent = lend("block", block->bytes, block->len);
    tell("number", number);
    void *out = take("out", out_len), *len = take("len", sizeof(size_t));
    finish(edges_build(lent, block->len, number, out, out_len, len),
           plain_build(block->bytes, block->len, number, want(0), out_len, want(1)));
}

static void check_dip(const Block *block, const Bytes *edge)
{
    begin("edges_dip");
    const uint8_t *lent = lend("block", block->bytes, block->len);
    const uint8_t *lent_edge = lend("edge", edge->bytes, edge->len);
    void *dips = take("dips", sizeof(uint8_t)), *place = take("place", sizeof(size_t));
    finish(edges_dip(lent, block->len, lent_edge, edge->len, dips, place),
           plain_dip(block->bytes, block->len, edge->bytes, edge->len, want(0), want(1)));
}

static void check_earlier(const Block *block, const Bytes *a, const Bytes *b)
{
    begin("edges_earlier");
    const uint8_t *lent = lend("block", block->bytes, block->len);
    const uint8_t *lent_a = lend("a", a->bytes, a->len);
    const uint8_t *lent_b = lend("b", b->bytes, b->len);
    void *second = take("second", sizeof(uint8_t));
    finish(edges_earlier(lent, block->len, lent_a, a->len, lent_b, b->len, second),
           plain_earlier(block->bytes, block->len, a->bytes, a->len, b->bytes, b->len, want(0)));
}

static void check_pack_write(const Block *block, const uint64_t *numbers, size_t n, size_t out_len)
{
    begin("edges_pack_write");
    const uint8_t *lent = lend("block", block->bytes, block->len);
    const uint64_t *lent_numbers = lend("numbers", numbers, n * sizeof numbers[0]);
    void *out = take("out", out_len), *len = take("len", sizeof(size_t));
    finish(edges_pack_write(lent, block->len, lent_numbers, n, out, out_len, len),
           plain_pack_write(block->bytes, block->len, numbers, n, want(0), out_len, want(1)));
}

static void check_pack_edge(const Bytes *pack, size_t i)
{
    begin("edges_pack_edge");
    const uint8_t *lent = lend("pack", pack->bytes, pack->len);
    tell("i", i);
    void *start = take("start", sizeof(size_t)), *end = take("end", sizeof(size_t));
    finish(edges_pack_edge(lent, pack->len, i, start, end),
           plain_pack_edge(pack->bytes, pack->len, i, want(0), want(1)));
}

static void check_pack_repeat(const Bytes *pack)
{
    begin("edges_pack_repeat");
    const uint8_t *lent = lend("pack", pack->bytes, pack->len);
    void *found = take("found", sizeof(uint8_t));
    void *later = take("later", sizeof(size_t)), *earlier = take("earlier", sizeof(size_t));
    finish(edges_pack_repeat(lent, pack->len, found, later, earlier),
           plain_pack_repeat(pack->bytes, pack->len, want(0), want(1), want(2)));
}

static void check_pack_numbers(const Bytes *pack, size_t n)
{
    begin("edges_pack_numbers");
    const uint8_t *lent = lend("pack", pack->bytes, pack->len);
    void *numbers = take("numbers", n * sizeof(uint64_t)), *count = take("count", sizeof(size_t));
    finish(edges_pack_numbers(lent, pack->len, numbers, n, count),
           plain_pack_numbers(pack->bytes, pack->len, want(0), n, want(1)));
}

/* Plain C against brute force, and the library on every edge of the same small jobs */

static struct {
    uint64_t jobs, edges, strings;
} brute;

static void plain_against_list(const Block *block, const List *list)
{
    uint64_t count = 0, number = 0;
    uint8_t width = 0, edge[LONGEST_EDGE];
    size_t len = 0;
    brute.jobs++;
    if (plain_count(block->bytes, block->len, &count) != 0 || count != list->count)
        differs("plain C counts other than brute force");
    if (plain_width(block->bytes, block->len, &width) != 0)
        differs("plain C refuses the width of a small job");
    uint64_t largest = count == 0 ? 0 : count - 1;
    if (largest >> width != 0 || (width > 0 && largest >> (width - 1) == 0))
        differs("plain C's width isn't the least that holds every number");
    if (plain_build(block->bytes, block->len, count, edge, sizeof edge, &len) != BEYOND)
        differs("plain C builds an edge beyond the count");
    for (size_t i = 0; i < list->count; i++) {
        const Edge *must = &list->edge[i];
        brute.edges++;
        if (plain_number(block->bytes, block->len, must->step, must->len, &number) != 0 || number != i)
            differs("plain C numbers an edge other than brute force");
        if (plain_build(block->bytes, block->len, i, edge, sizeof edge, &len) != 0 || len != must->len ||
            memcmp(edge, must->step, len) != 0)
            differs("plain C builds another edge than brute force");
    }
}

/* Every string up to some length of the job's letters and one that is none: numbered exactly if it is in the list. */
static void strings_against_list(const Block *block, const Job *job, const List *list, Edge *string, int longest)
{
    uint64_t number;
    bool accepted = plain_number(block->bytes, block->len, string->step, string->len, &number) == 0;
    brute.strings++;
    if (accepted != brute_holds(list, string->step, string->len))
        differs("plain C and brute force don't accept the same strings");
    if (one_in(256))
        check_number(block, string->step, string->len);
    if (longest == 0)
        return;
    for (int i = 0; i <= job->steps; i++) {
        uint8_t foreign = job->family >= 6 ? (uint8_t)('1' + job->steps) : job->steps == 2 ? 'D' : '1';
        string->step[string->len++] = i < job->steps ? job->step[i].letter : foreign;
        strings_against_list(block, job, list, string, longest - 1);
        string->len--;
    }
}

static void small_job(Block block)
{
    static List list;
    static const int longest[9] = {0, 8, 6, 5, 4, 3, 3, 3, 3};
    Job job;
    Edge string = {{0}, 0};
    if (plain_job(block.bytes, block.len, &job) != 0) {
        differs("plain C refuses a small job");
        return;
    }
    brute_list(&job, &list);
    plain_against_list(&block, &list);
    if (job.n <= 4)
        strings_against_list(&block, &job, &list, &string, longest[job.steps]);

    check_count(&block);
    check_width(&block);
    check_build(&block, list.count, LONGEST_EDGE);
    for (size_t i = 0; i < list.count; i++) {
        check_number(&block, list.edge[i].step, list.edge[i].len);
        check_build(&block, i, list.edge[i].len + below(2));
    }
}

static void small_directed_jobs(Block steps, int largest_n)
{
    for (int n = 0; n <= largest_n; n++)
        for (int m = -3 * n - 1; m <= 3 * n + 1; m++)
            for (int family = 6; family <= 7; family++) {
                steps.bytes[0] = (uint8_t)family;
                steps.bytes[1] = (uint8_t)n;
                steps.bytes[2] = (uint8_t)m;
                small_job(steps);
            }
}

/* The block with the steps T of document 01: (1,-1), (1,0), (1,1). */
static Block block_with_T(int family, int n, int m)
{
    Block block = lettered_block(family, n, m);
    memcpy(block.bytes + 3, (uint8_t[]){3, 1, 255, 1, 0, 1, 1}, 7);
    return block;
}

static void small_jobs(void)
{
    static const int largest[6] = {[2] = 8, [4] = 6, [5] = 10}, largest_n[9] = {0, 12, 10, 7, 6, 5, 5, 5, 5};
    for (int n = 0; n <= 5; n++)
        for (int m = 0; m <= 5; m++) {
            small_job(lettered_block(1, n, m));
            small_job(lettered_block(3, n, m));
        }
    for (int family = 2; family <= 5; family++)
        for (int n = 0; n <= largest[family] && family != 3; n++)
            small_job(lettered_block(family, n, n));
    small_directed_jobs(block_with_T(6, 0, 0), 6);
    for (int k = 1; k <= 8; k++)
        for (int i = 0; i < 3; i++)
            small_directed_jobs(directed_block(6, 0, 0, k, i == 0 && k <= 7 ? 1 : 3), largest_n[k]);
    printf("brute force %6llu jobs: %llu edges and %llu strings held against plain C\n", (unsigned long long)brute.jobs,
           (unsigned long long)brute.edges, (unsigned long long)brute.strings);
    end_section("small jobs");
}

/* Plain C on jobs of any size: counts by walking, numbers by document 01's order */

static void plain_count_by_walking(const Block *block)
{
    Job job;
    uint64_t count = 0, must = 0;
    uint8_t refusal = plain_count(block->bytes, block->len, &count);
    if (plain_job(block->bytes, block->len, &job) != 0 || refusal != brute_count(&job, &must) ||
        (refusal == 0 && count != must))
        differs("plain C counts other than walking does");
}

static void plain_number_by_order(int family)
{
    uint64_t count, r, s, number[2] = {0, 0};
    Job job;
    Block block = fitting_job(family, &count);
    uint8_t edge[2][LONGEST_EDGE];
    size_t len[2];
    r = below(count);
    s = one_in(2) ? below(count) : r + (r + 1 < count);
    plain_job(block.bytes, block.len, &job);
    for (int i = 0; i < 2; i++) {
        plain_build(block.bytes, block.len, i == 0 ? r : s, edge[i], LONGEST_EDGE, &len[i]);
        plain_number(block.bytes, block.len, edge[i], len[i], &number[i]);
    }
    if (number[0] != r || number[1] != s)
        differs("plain C gives an edge another number than it was built from");
    if (plain_before(&job, edge[0], len[0], edge[1], len[1]) != (r < s) ||
        plain_before(&job, edge[1], len[1], edge[0], len[0]) != (s < r))
        differs("plain C's numbers don't run in document 01's order");
}

static void large_jobs(void)
{
    int counted = 0, pairs = 0;
    for (int n = 0; n <= 64; n++)
        for (int m = 0; m <= 64; m++)
            for (int family = 1; family <= 5; family++)
                if (family == 1 || family == 3 || m == n) {
                    Block block = lettered_block(family, n, m);
                    plain_count_by_walking(&block);
                    counted++;
                }
    for (; counted < 12000; counted++) {
        Block block = any_job(between(6, 7));
        plain_count_by_walking(&block);
    }
    for (; pairs < 14000; pairs++)
        plain_number_by_order(1 + pairs % 7);
    printf("walking     %6d jobs of any size: counts, and the order of %d pairs of edges, held against plain C\n",
           counted, pairs);
}

/* Document 01's examples, and limits */

static void example_edge(Block block, const char *edge, uint64_t must)
{
    uint64_t number = ~must;
    uint8_t built[LONGEST_EDGE];
    size_t len = 0, edge_len = strlen(edge);
    if (plain_number(block.bytes, block.len, (const uint8_t *)edge, edge_len, &number) != 0 || number != must)
        differs(edge);
    if (plain_build(block.bytes, block.len, must, built, sizeof built, &len) != 0 || len != edge_len ||
        memcmp(built, edge, len) != 0)
        differs(edge);
    check_number(&block, (const uint8_t *)edge, edge_len);
    for (size_t room = 0; room <= edge_len + 2; room++)
        check_build(&block, must, room);
}

static void example_no_edge(Block block, const char *edge)
{
    uint64_t number;
    if (plain_number(block.bytes, block.len, (const uint8_t *)edge, strlen(edge), &number) != NOT_AN_EDGE)
        differs(edge);
    check_number(&block, (const uint8_t *)edge, strlen(edge));
}

static void example_count(Block block, uint8_t refusal, uint64_t must)
{
    uint64_t count = must;
    if (plain_count(block.bytes, block.len, &count) != refusal || count != must)
        differs("a count of document 01");
    check_count(&block);
    check_width(&block);
    check_build(&block, must, LONGEST_EDGE);
    if (must > 0)
        check_build(&block, must - 1, LONGEST_EDGE);
}

/* Table entries that can't reach the end are too large here, one of them a single step away from it. */
static void examples_of_over(void)
{
    static const uint8_t seven[15] = {7, 1, 253, 1, 254, 1, 255, 1, 0, 1, 1, 1, 2, 1, 3};
    static const uint8_t eight[17] = {8, 1, 253, 1, 255, 1, 1, 1, 3, 2, 254, 2, 0, 2, 2, 3, 1};
    Block block = lettered_block(6, 32, 96);
    memcpy(block.bytes + 3, seven, sizeof seven);
    example_count(block, 0, 1);
    for (int family = 6; family <= 7; family++)
        for (int m = -96; m <= 96; m++) {
            block.bytes[0] = (uint8_t)family;
            block.bytes[2] = (uint8_t)m;
            check_count(&block);
        }
    block = lettered_block(6, 32, 1);
    memcpy(block.bytes + 3, eight, sizeof eight);
    example_count(block, 0, 0);
}

static const struct {
    int family, n, m;
    const char *edge;
    uint64_t number;
} edges_of_examples[] = {
    {1, 3, 3, "NNEEEN", 9},   {1, 0, 0, "", 0},         {1, 3, 3, "EEENNN", 0}, {1, 3, 3, "NNNEEE", 19},
    {2, 4, 4, "EENENENN", 4}, {2, 4, 4, "ENEEENNN", 5}, {3, 1, 1, "EN", 0},     {3, 1, 1, "NE", 1},
    {3, 1, 1, "D", 2},        {4, 3, 3, "DEDN", 12},    {4, 3, 3, "DEENN", 14}, {5, 3, 3, "DDD", 0},
    {5, 3, 3, "END", 1},      {5, 3, 3, "EDN", 2},      {5, 3, 3, "DEN", 3},    {6, 3, 1, "133", 5},
    {6, 3, 1, "331", 0},      {6, 3, 1, "322", 1},
};

static void examples(void)
{
    for (size_t i = 0; i < sizeof edges_of_examples / sizeof edges_of_examples[0]; i++) {
        int family = edges_of_examples[i].family, n = edges_of_examples[i].n, m = edges_of_examples[i].m;
        Block block = family <= 5 ? lettered_block(family, n, m) : block_with_T(family, n, m);
        example_edge(block, edges_of_examples[i].edge, edges_of_examples[i].number);
    }
    example_count(lettered_block(1, 0, 0), 0, 1);
    example_count(lettered_block(5, 3, 3), 0, 4);
    example_count(block_with_T(6, 3, 1), 0, 6);
    example_count(block_with_T(7, 3, 1), 0, 5);
    example_no_edge(block_with_T(7, 3, 1), "133");
    example_no_edge(block_with_T(7, 3, 1), "334");
    example_count(block_with_T(7, 2, -1), 0, 0);
    example_count(lettered_block(1, 33, 34), 0, 14226520737620288370u);
    example_count(lettered_block(1, 34, 34), OVER, 0);
    example_count(lettered_block(1, 65, 0), SIZE, 0);
    example_count(lettered_block(2, 36, 36), 0, 11959798385860453492u);
    example_count(lettered_block(2, 37, 37), OVER, 0);
    example_count(lettered_block(4, 29, 29), OVER, 0);
    example_count(lettered_block(5, 46, 46), OVER, 0);
    examples_of_over();
    end_section("examples");
}

/* Drawn cases */

static void counts(void)
{
    for (int n = 0; n <= 66; n++) {
        for (int m = -1; m <= 66; m++)
            for (int family = 1; family <= 3; family += 2) {
                Block block = lettered_block(family, n, m);
                check_count(&block);
            }
        for (int family = 2; family <= 5; family++)
            for (int m = n - 1; m <= n + 1; m++) {
                Block block = lettered_block(family, n, m);
                check_count(&block);
            }
    }
    for (int i = 0; i < 24000; i++) {
        Block block = any_job(0);
        if (one_in(2))
            damage_block(&block);
        check_count(&block);
    }
    end_section("count");
}

static void widths(void)
{
    for (int i = 0; i < 20000; i++) {
        Block block = any_job(0);
        if (one_in(3))
            damage_block(&block);
        check_width(&block);
    }
    end_section("width");
}

/* A job, with a valid edge of it where it has one, else with the empty edge. */
static Block job_with_edge(int family, uint64_t *count, Bytes *edge)
{
    Block block = any_job(family);
    edge->len = 0;
    if (plain_count(block.bytes, block.len, count) != 0)
        *count = 0;
    if (*count > 0)
        any_edge(&block, *count, edge);
    return block;
}

/* The same block in the family with the same steps and another "stays" rule: 1 and 2, 3 and 4, 6 and 7. */
static Block other_fence(Block block)
{
    static const uint8_t other[8] = {0, 2, 1, 4, 3, 5, 7, 6};
    block.bytes[0] = other[block.bytes[0]];
    return block;
}

static void numbers(void)
{
    static Bytes edge;
    for (int i = 0; i < 12000; i++) {
        uint64_t count;
        Block block = job_with_edge(0, &count, &edge);
        check_number(&block, edge.bytes, edge.len);
        Block other = other_fence(block);
        check_number(&other, edge.bytes, edge.len);
        do
            damage_edge(&edge);
        while (one_in(4));
        check_number(&block, edge.bytes, edge.len);
        if (one_in(2)) {
            damage_block(&block);
            check_number(&block, edge.bytes, edge.len);
        }
    }
    end_section("number");
}

/* A length for the output: around the answer's, or none, or far too long. */
static size_t any_room(size_t answer)
{
    if (one_in(8))
        return one_in(2) ? 0 : below(LENT_MOST);
    size_t less = below(3);
    return one_in(2) ? answer + below(3) : answer < less ? 0 : answer - less;
}

static void builds(void)
{
    for (int i = 0; i < 15000; i++) {
        uint64_t count = 0;
        Block block = any_job(0);
        uint8_t edge[LONGEST_EDGE];
        bool counted = plain_count(block.bytes, block.len, &count) == 0;
        for (int j = 0; j < 3; j++) {
            uint64_t number = any_number(count);
            size_t len = 0;
            if (counted && number < count)
                plain_build(block.bytes, block.len, number, edge, sizeof edge, &len);
            check_build(&block, number, any_room(len));
        }
        if (one_in(3)) {
            damage_block(&block);
            check_build(&block, any_number(count), any_room(20));
        }
    }
    end_section("build");
}

static void dips(void)
{
    static Bytes edge;
    for (int i = 0; i < 12000; i++) {
        uint64_t count;
        Block block = job_with_edge(one_in(6) ? 0 : between(6, 7), &count, &edge);
        check_dip(&block, &edge);
        if (one_in(2))
            damage_edge(&edge);
        if (one_in(3))
            block = other_fence(block);
        if (one_in(4))
            damage_block(&block);
        check_dip(&block, &edge);
    }
    end_section("dip");
}

static void earlier_ones(void)
{
    static Bytes a, b;
    for (int i = 0; i < 8000; i++) {
        uint64_t count, number;
        Block block = job_with_edge(0, &count, &a);
        b = a;
        if (count > 0 && !one_in(10)) {
            /* any edge, or the next one after a */
            plain_number(block.bytes, block.len, a.bytes, a.len, &number);
            number = one_in(2) ? below(count) : (number + 1) % count;
            plain_build(block.bytes, block.len, number, b.bytes, LONGEST_CASE, &b.len);
        }
        check_earlier(&block, &a, &b);
        check_earlier(&block, &b, &a);
        int damage = between(0, 5);
        if (damage <= 2)
            damage_edge(&a);
        if (damage >= 2 && damage <= 4)
            damage_edge(&b);
        if (damage == 5)
            damage_block(&block);
        check_earlier(&block, &a, &b);
    }
    end_section("earlier");
}

enum { MOST_NUMBERS = 1000 };

/* Numbers to pack: up to 200 and now and then more, from a few different ones or from all, sometimes one too large. */
static size_t any_numbers(uint64_t count, uint64_t *numbers)
{
    size_t n = one_in(3) ? below(6) : one_in(6) ? 198 + below(5) : below(201);
    if (one_in(50))
        n = below(MOST_NUMBERS);
    uint64_t few[8];
    for (int i = 0; i < 8; i++)
        few[i] = count == 0 ? 0 : below(count);
    bool from_few = one_in(3);
    for (size_t i = 0; i < n; i++)
        numbers[i] = from_few || count == 0 ? few[below(8)] : below(count);
    if (n > 0 && one_in(6))
        numbers[one_in(3) ? n - 1 : below(n)] = any_number(count);
    return n;
}

static void pack_writes(void)
{
    static Bytes pack;
    static uint64_t numbers[MOST_NUMBERS];
    for (int i = 0; i < 8000; i++) {
        uint64_t count = 0;
        Block block = any_job(0);
        if (plain_count(block.bytes, block.len, &count) != 0)
            count = draw();
        size_t n = any_numbers(count, numbers);
        if (one_in(8))
            damage_block(&block);
        if (plain_pack_write(block.bytes, block.len, numbers, n, pack.bytes, LONGEST_CASE, &pack.len) != 0)
            pack.len = 28;
        check_pack_write(&block, numbers, n, any_room(pack.len));
        check_pack_write(&block, numbers, n, pack.len);
    }
    end_section("pack_write");
}

/* A pack of a job with a count above 0, damaged every second time. */
static void any_pack(Bytes *pack)
{
    static uint64_t numbers[MOST_NUMBERS];
    uint64_t count;
    Block block = fitting_job(one_in(20) ? 1 : 0, &count);
    if (one_in(20)) {
        block = lettered_block(between(1, 5), 0, 0); /* empty edges */
        count = 1;
    }
    size_t n = any_numbers(count, numbers) % (PACK_EDGES + 1);
    for (size_t i = 0; i < n; i++)
        numbers[i] %= count;
    if (plain_pack_write(block.bytes, block.len, numbers, n, pack->bytes, LONGEST_CASE, &pack->len) != 0)
        abort();
    if (one_in(2))
        damage_pack(pack);
}

static uint64_t any_place(size_t c)
{
    switch (below(8)) {
    case 0:
        return c;
    case 1:
        return c + below(300);
    case 2:
        return (1ull << between(8, 63)) + below(c + 1);
    case 3:
        return UINT64_MAX - below(2);
    default:
        return below(c + (c == 0));
    }
}

static void pack_edges(void)
{
    static Bytes pack;
    for (int i = 0; i < 9000; i++) {
        any_pack(&pack);
        size_t c = pack.len < 26 ? 0 : pack.bytes[24] + 256u * pack.bytes[25];
        for (int j = 0; j < 2; j++)
            check_pack_edge(&pack, any_place(c));
    }
    end_section("pack_edge");
}

static void pack_repeats(void)
{
    static Bytes pack;
    for (int i = 0; i < 14000; i++) {
        any_pack(&pack);
        check_pack_repeat(&pack);
    }
    end_section("pack_repeat");
}

/* A full pack, whose last edge alone isn't valid now and then, and lists with just enough entries or one too few. */
static void full_packs(void)
{
    static Bytes pack;
    static uint64_t numbers[PACK_EDGES];
    for (int i = 0; i < 40; i++) {
        uint64_t count;
        Block block = fitting_job(1 + i % 7, &count);
        for (int j = 0; j < PACK_EDGES; j++)
            numbers[j] = below(count);
        if (plain_pack_write(block.bytes, block.len, numbers, PACK_EDGES, pack.bytes, LONGEST_CASE, &pack.len) != 0)
            abort();
        check_pack_numbers(&pack, PACK_EDGES);
        check_pack_numbers(&pack, PACK_EDGES - 1);
        pack.bytes[pack.len - 1] = 'X';
        check_pack_numbers(&pack, PACK_EDGES);
        check_pack_numbers(&pack, PACK_EDGES - 1);
    }
}

/* Lists with an entry too few, none at all, just enough, and more. */
static void pack_numbers(void)
{
    static Bytes pack;
    for (int i = 0; i < 10000; i++) {
        any_pack(&pack);
        size_t c = pack.len < 26 ? 0 : (pack.bytes[24] + 256u * pack.bytes[25]) % (PACK_EDGES + 1);
        check_pack_numbers(&pack, one_in(6) ? below(c + 1) : c + (one_in(2) ? 0 : below(40)));
    }
    full_packs();
    end_section("pack_numbers");
}

/* Every call must have given each answer that it has. */
#define MUST_HAVE_SEEN(name, ...)                                                                                      \
    must_have_seen(name, (const uint8_t[]){__VA_ARGS__}, (int)sizeof((const uint8_t[]){__VA_ARGS__}))

static void all_answers_seen(void)
{
    MUST_HAVE_SEEN("edges_count", 0, FORM, SIZE, TWIN, OVER);
    MUST_HAVE_SEEN("edges_width", 0, FORM, SIZE, TWIN, OVER);
    MUST_HAVE_SEEN("edges_number", 0, FORM, SIZE, TWIN, OVER, NOT_AN_EDGE);
    MUST_HAVE_SEEN("edges_build", 0, FORM, SIZE, TWIN, OVER, BEYOND, ROOM);
    MUST_HAVE_SEEN("edges_dip", 0, FORM, SIZE, TWIN, OVER, KIND, NOT_AN_EDGE);
    MUST_HAVE_SEEN("edges_earlier", 0, FORM, SIZE, TWIN, OVER, NOT_AN_EDGE);
    MUST_HAVE_SEEN("edges_pack_write", 0, FORM, SIZE, TWIN, OVER, MANY, BEYOND, ROOM);
    MUST_HAVE_SEEN("edges_pack_edge", 0, PACK, FORM, SIZE, TWIN, OVER, NOT_AN_EDGE, NO_SUCH_EDGE);
    MUST_HAVE_SEEN("edges_pack_repeat", 0, PACK, FORM, SIZE, TWIN, OVER, NOT_AN_EDGE);
    MUST_HAVE_SEEN("edges_pack_numbers", 0, PACK, FORM, SIZE, TWIN, OVER, NOT_AN_EDGE, ROOM);
}

int main(int argc, char **argv)
{
    draw_from(argc > 1 ? strtoull(argv[1], NULL, 10) : 1);
    lend_start();
    small_jobs();
    large_jobs();
    examples();
    counts();
    widths();
    numbers();
    builds();
    dips();
    earlier_ones();
    pack_writes();
    pack_edges();
    pack_repeats();
    pack_numbers();
    all_answers_seen();
    return end_tests();
}
