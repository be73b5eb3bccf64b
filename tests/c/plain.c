#include "plain.h"

#include <string.h>

/* Jobs */

static bool is_directed(int family)
{
    return family >= 6;
}

/* Families 2, 4 and 5, whose paths are read as arches. */
static bool is_arched(int family)
{
    return family == 2 || family == 4 || family == 5;
}

static int smaller(int a, int b)
{
    return a < b ? a : b;
}

static int larger(int a, int b)
{
    return a > b ? a : b;
}

static uint8_t directed_job(const uint8_t *block, Job *job)
{
    int k = block[3];
    if (job->n > 32 || job->m < -96 || job->m > 96 || k < 1 || k > 8)
        return SIZE;
    for (int i = 0; i < k; i++) {
        Step step = {(uint8_t)('1' + i), block[4 + 2 * i], (int8_t)block[5 + 2 * i]};
        if (step.dx < 1 || step.dx > 3 || step.dy < -3 || step.dy > 3)
            return SIZE;
        job->step[i] = step;
    }
    job->steps = k;
    for (int i = 0; i < k; i++)
        for (int j = 0; j < i; j++)
            if (job->step[i].dx == job->step[j].dx && job->step[i].dy == job->step[j].dy)
                return TWIN;
    return 0;
}

static uint8_t lettered_job(Job *job)
{
    static const Step one_cell[3] = {{'N', 0, 1}, {'E', 1, 0}, {'D', 1, 1}};
    static const Step motzkin[3] = {{'N', 0, 2}, {'E', 2, 0}, {'D', 1, 1}};

    if (job->n > 64 || job->m < 0 || job->m > 64)
        return SIZE;
    if (is_arched(job->family) && job->m != job->n)
        return SIZE;
    job->steps = job->family <= 2 ? 2 : 3;
    memcpy(job->step, job->family == 5 ? motzkin : one_cell, sizeof one_cell);
    return 0;
}

uint8_t plain_job(const uint8_t *block, size_t block_len, Job *job)
{
    if (block_len != BLOCK_LENGTH || block[0] < 1 || block[0] > 7)
        return FORM;
    job->family = block[0];
    job->n = block[1];
    job->m = (int8_t)block[2];
    int used = is_directed(job->family) ? 4 + 2 * smaller(block[3], 8) : 3;
    for (int i = used; i < BLOCK_LENGTH; i++)
        if (block[i] != 0)
            return FORM;
    return is_directed(job->family) ? directed_job(block, job) : lettered_job(job);
}

/* Valid edges */

bool plain_stays(const Job *job, long x, long y)
{
    if (is_arched(job->family))
        return y <= x;
    return job->family != 7 || y >= 0;
}

const Step *plain_step(const Job *job, uint8_t letter)
{
    for (int i = 0; i < job->steps; i++)
        if (job->step[i].letter == letter)
            return &job->step[i];
    return NULL;
}

bool plain_valid(const Job *job, const uint8_t *edge, size_t edge_len)
{
    long x = 0, y = 0;
    for (size_t i = 0; i < edge_len; i++) {
        const Step *step = plain_step(job, edge[i]);
        if (step == NULL)
            return false;
        x += step->dx;
        y += step->dy;
        if (!plain_stays(job, x, y))
            return false;
    }
    return x == job->n && y == job->m;
}

/* Paths of families 2, 4 and 5 as first part, E, inside, N */

static bool has_d(const Job *job)
{
    return job->family != 2;
}

/* What an arch adds to x beside its inside: the length of its E. */
static int arch_width(const Job *job)
{
    return job->family == 5 ? 2 : 1;
}

/* The x at which a path ends that starts at 0. */
static int size_of(const Job *job, const uint8_t *path, size_t len)
{
    int x = 0;
    for (size_t i = 0; i < len; i++)
        x += path[i] == 'E' ? arch_width(job) : path[i] == 'D';
    return x;
}

/* The place of the E that is the partner of the last step, an N. */
static size_t partner(const uint8_t *path, size_t len)
{
    size_t i = len - 1;
    for (int open = 1; open > 0;) {
        i--;
        open += (path[i] == 'N') - (path[i] == 'E');
    }
    return i;
}

/* Order */

static int rank_of(const Job *job, uint8_t letter)
{
    return (int)(plain_step(job, letter) - job->step);
}

static bool before_backwards(const Job *job, const uint8_t *a, size_t a_len, const uint8_t *b, size_t b_len)
{
    while (a_len > 0 && b_len > 0) {
        a_len--;
        b_len--;
        if (a[a_len] != b[b_len])
            return rank_of(job, a[a_len]) < rank_of(job, b[b_len]);
    }
    return false;
}

static bool before_arched(const Job *job, const uint8_t *a, size_t a_len, const uint8_t *b, size_t b_len)
{
    if (a_len == b_len && memcmp(a, b, a_len) == 0)
        return false;
    bool a_in_d = a[a_len - 1] == 'D', b_in_d = b[b_len - 1] == 'D';
    if (a_in_d && b_in_d)
        return before_arched(job, a, a_len - 1, b, b_len - 1);
    if (a_in_d || b_in_d)
        return a_in_d;

    size_t a_arch = partner(a, a_len), b_arch = partner(b, b_len);
    int a_first = size_of(job, a, a_arch), b_first = size_of(job, b, b_arch);
    if (a_first != b_first)
        return a_first < b_first;
    const uint8_t *a_inside = a + a_arch + 1, *b_inside = b + b_arch + 1;
    size_t a_inside_len = a_len - a_arch - 2, b_inside_len = b_len - b_arch - 2;
    if (a_inside_len != b_inside_len || memcmp(a_inside, b_inside, a_inside_len) != 0)
        return before_arched(job, a_inside, a_inside_len, b_inside, b_inside_len);
    return before_arched(job, a, a_arch, b, b_arch);
}

bool plain_before(const Job *job, const uint8_t *a, size_t a_len, const uint8_t *b, size_t b_len)
{
    return (is_arched(job->family) ? before_arched : before_backwards)(job, a, a_len, b, b_len);
}

/* Counts */

typedef unsigned __int128 Wide;

/* Stands for every count above 2^64-1. Such a cell may lie in the table of an accepted job, where it can't reach the
 * end; a sum with it in it is again too many, so the job's own count is exact. */
#define TOO_MANY ((Wide)1 << 64)

static Wide capped(Wide count)
{
    return count < TOO_MANY ? count : TOO_MANY;
}

enum { MOST_COLUMNS = 65, HIGHEST = 96, HEIGHTS = 2 * HIGHEST + 1 };

/* C, S or M up to n; or L, D or W in columns, from a lowest to a highest y that an edge can pass. */
typedef struct {
    uint64_t count;
    uint64_t sizes[MOST_COLUMNS];
    int low[MOST_COLUMNS], high[MOST_COLUMNS];
    Wide ways[MOST_COLUMNS][HEIGHTS]; /* (x,y) at [x][y + HIGHEST] */
} Counts;

static Wide ways_at(const Counts *counts, int x, int y)
{
    return x < 0 || y < counts->low[x] || y > counts->high[x] ? 0 : counts->ways[x][y + HIGHEST];
}

/* L by equation 2, D by equation 6. */
static void fill_rectangle(const Job *job, Counts *counts)
{
    for (int y = 0; y <= job->m; y++)
        counts->ways[0][y + HIGHEST] = 1;
    for (int x = 1; x <= job->n; x++) {
        Wide *column = counts->ways[x] + HIGHEST;
        const Wide *before = counts->ways[x - 1] + HIGHEST;
        column[0] = 1;
        for (int y = 1; y <= job->m; y++) {
            Wide sum = column[y - 1] + before[y];
            if (job->family == 3)
                sum += before[y - 1];
            column[y] = capped(sum);
        }
    }
    for (int x = 0; x <= job->n; x++) {
        counts->low[x] = 0;
        counts->high[x] = job->m;
    }
}

/* W by Theorem 3 and equation 11: each step adds the column that it comes from, moved by its dy. No step is steeper
 * than 3 either way, so from (0,0), and on to the end, an edge keeps within lines of that slope. */
static void fill_directed(const Job *job, Counts *counts)
{
    for (int x = 0; x <= job->n; x++) {
        int low = larger(-3 * x, job->m - 3 * (job->n - x)), high = smaller(3 * x, job->m + 3 * (job->n - x));
        if (job->family == 7)
            low = larger(low, 0);
        Wide *column = counts->ways[x] + HIGHEST;
        counts->low[x] = low;
        counts->high[x] = high;
        for (int y = low; y <= high; y++)
            column[y] = x == 0 && y == 0;
        for (const Step *step = job->step; step < job->step + job->steps; step++) {
            if (x < step->dx)
                continue;
            const Wide *from = counts->ways[x - step->dx] + HIGHEST - step->dy;
            int first = larger(low, counts->low[x - step->dx] + step->dy);
            int last = smaller(high, counts->high[x - step->dx] + step->dy);
            for (int y = first; y <= last; y++)
                column[y] += from[y];
        }
        for (int y = low; y <= high; y++)
            column[y] = capped(column[y]);
    }
}

static uint8_t fill_ways(const Job *job, Counts *counts)
{
    if (is_directed(job->family))
        fill_directed(job, counts);
    else
        fill_rectangle(job, counts);
    Wide count = ways_at(counts, job->n, job->m);
    counts->count = (uint64_t)count;
    return count == TOO_MANY ? OVER : 0;
}

/* C, S or M. None is smaller than the one before it, so one that is too large makes the last one too large. */
static uint8_t fill_sizes(const Job *job, Counts *counts)
{
    uint64_t *sizes = counts->sizes;
    sizes[0] = 1;
    for (int n = 1; n <= job->n; n++) {
        Wide sum = has_d(job) ? sizes[n - 1] : 0;
        int rest = n - arch_width(job);
        for (int i = 0; i <= rest; i++) {
            sum += (Wide)sizes[i] * sizes[rest - i];
            if (sum >= TOO_MANY)
                return OVER;
        }
        sizes[n] = (uint64_t)sum;
    }
    counts->count = sizes[job->n];
    return 0;
}

/* Refusals 1, 2, 3 and 4, or 0 with the job and its counts. */
static uint8_t prepare(const uint8_t *block, size_t block_len, Job *job, Counts *counts)
{
    uint8_t refusal = plain_job(block, block_len, job);
    if (refusal != 0)
        return refusal;
    return is_arched(job->family) ? fill_sizes(job, counts) : fill_ways(job, counts);
}

uint8_t plain_count(const uint8_t *block, size_t block_len, uint64_t *count)
{
    Job job;
    Counts counts;
    uint8_t refusal = prepare(block, block_len, &job, &counts);
    if (refusal == 0)
        *count = counts.count;
    return refusal;
}

uint8_t plain_width(const uint8_t *block, size_t block_len, uint8_t *width)
{
    uint64_t count;
    uint8_t refusal = plain_count(block, block_len, &count);
    if (refusal != 0)
        return refusal;
    uint8_t bits = 0;
    for (uint64_t largest = count < 2 ? 0 : count - 1; largest > 0; largest /= 2)
        bits++;
    *width = bits;
    return 0;
}

/* Numbers */

/* 000 algorithm 1, 001 algorithm 7: before an edge stand those that end in an earlier letter. */
static uint64_t number_backwards(const Job *job, const Counts *counts, const uint8_t *edge, size_t edge_len)
{
    uint64_t number = 0;
    int x = job->n, y = job->m;
    while (edge_len-- > 0) {
        const Step *step = job->step;
        for (; step->letter != edge[edge_len]; step++)
            number += (uint64_t)ways_at(counts, x - step->dx, y - step->dy);
        x -= step->dx;
        y -= step->dy;
    }
    return number;
}

/* 000 algorithms 3, 7 and 9. */
static uint64_t number_arched(const Job *job, const uint64_t *sizes, const uint8_t *path, size_t len)
{
    if (len == 0)
        return 0;
    if (path[len - 1] == 'D')
        return number_arched(job, sizes, path, len - 1);
    size_t arch = partner(path, len);
    int first = size_of(job, path, arch);
    int rest = first + size_of(job, path + arch + 1, len - arch - 2);
    uint64_t number = has_d(job) ? sizes[rest + arch_width(job) - 1] : 0;
    for (int i = 0; i < first; i++)
        number += sizes[i] * sizes[rest - i];
    number += number_arched(job, sizes, path, arch);
    return number + sizes[first] * number_arched(job, sizes, path + arch + 1, len - arch - 2);
}

static uint64_t number_of(const Job *job, const Counts *counts, const uint8_t *edge, size_t edge_len)
{
    return is_arched(job->family) ? number_arched(job, counts->sizes, edge, edge_len)
                                  : number_backwards(job, counts, edge, edge_len);
}

uint8_t plain_number(const uint8_t *block, size_t block_len, const uint8_t *edge, size_t edge_len, uint64_t *number)
{
    Job job;
    Counts counts;
    uint8_t refusal = prepare(block, block_len, &job, &counts);
    if (refusal != 0)
        return refusal;
    if (!plain_valid(&job, edge, edge_len))
        return NOT_AN_EDGE;
    *number = number_of(&job, &counts, edge, edge_len);
    return 0;
}

/* Edges of numbers */

/* 000 algorithm 2, 001 algorithm 8: the steps from the last to the first, then turned round. */
static size_t build_backwards(const Job *job, const Counts *counts, uint64_t number, uint8_t *out)
{
    uint8_t backwards[LONGEST_EDGE];
    size_t len = 0;
    for (int x = job->n, y = job->m; x != 0 || y != 0;) {
        const Step *step = job->step;
        for (;; step++) {
            uint64_t ways = (uint64_t)ways_at(counts, x - step->dx, y - step->dy);
            if (number < ways)
                break;
            number -= ways;
        }
        backwards[len++] = step->letter;
        x -= step->dx;
        y -= step->dy;
    }
    for (size_t i = 0; i < len; i++)
        out[i] = backwards[len - 1 - i];
    return len;
}

/* 000 algorithms 4, 8 and 10. */
static size_t build_arched(const Job *job, const uint64_t *sizes, int n, uint64_t number, uint8_t *out)
{
    if (n == 0)
        return 0;
    if (has_d(job)) {
        if (number < sizes[n - 1]) {
            size_t len = build_arched(job, sizes, n - 1, number, out);
            out[len] = 'D';
            return len + 1;
        }
        number -= sizes[n - 1];
    }
    int first = 0, rest = n - arch_width(job);
    while (number >= sizes[first] * sizes[rest - first]) {
        number -= sizes[first] * sizes[rest - first];
        first++;
    }
    size_t len = build_arched(job, sizes, first, number % sizes[first], out);
    out[len++] = 'E';
    len += build_arched(job, sizes, rest - first, number / sizes[first], out + len);
    out[len] = 'N';
    return len + 1;
}

static size_t build(const Job *job, const Counts *counts, uint64_t number, uint8_t *out)
{
    return is_arched(job->family) ? build_arched(job, counts->sizes, job->n, number, out)
                                  : build_backwards(job, counts, number, out);
}

uint8_t plain_build(const uint8_t *block, size_t block_len, uint64_t number, uint8_t *out, size_t out_len, size_t *len)
{
    Job job;
    Counts counts;
    uint8_t refusal = prepare(block, block_len, &job, &counts);
    if (refusal != 0)
        return refusal;
    if (number >= counts.count)
        return BEYOND;
    uint8_t edge[LONGEST_EDGE];
    size_t edge_len = build(&job, &counts, number, edge);
    if (out_len < edge_len)
        return ROOM;
    for (size_t i = 0; i < edge_len; i++)
        out[i] = edge[i];
    *len = edge_len;
    return 0;
}

/* Questions on edges */

uint8_t plain_dip(const uint8_t *block, size_t block_len, const uint8_t *edge, size_t edge_len, uint8_t *dips,
                  size_t *place)
{
    Job job;
    Counts counts;
    uint8_t refusal = prepare(block, block_len, &job, &counts);
    if (refusal != 0)
        return refusal;
    if (!is_directed(job.family))
        return KIND;
    if (!plain_valid(&job, edge, edge_len))
        return NOT_AN_EDGE;
    *dips = 0;
    bool fell = false;
    for (size_t i = 0; i < edge_len; i++) {
        int dy = plain_step(&job, edge[i])->dy;
        if (fell && dy > 0) {
            *dips = 1;
            *place = i;
            break;
        }
        fell = fell || dy < 0;
    }
    return 0;
}

uint8_t plain_earlier(const uint8_t *block, size_t block_len, const uint8_t *a, size_t a_len, const uint8_t *b,
                      size_t b_len, uint8_t *second)
{
    Job job;
    Counts counts;
    uint8_t refusal = prepare(block, block_len, &job, &counts);
    if (refusal != 0)
        return refusal;
    if (!plain_valid(&job, a, a_len) || !plain_valid(&job, b, b_len))
        return NOT_AN_EDGE;
    *second = plain_before(&job, b, b_len, a, a_len);
    return 0;
}

/* Packs */

static size_t two_bytes(const uint8_t *at)
{
    return at[0] + 256u * at[1];
}

static void put_two_bytes(uint8_t *at, size_t value)
{
    at[0] = (uint8_t)(value % 256);
    at[1] = (uint8_t)(value / 256);
}

static size_t offset(const uint8_t *pack, size_t i)
{
    return two_bytes(pack + 26 + 2 * i);
}

static bool keeps_layout(const uint8_t *pack, size_t pack_len)
{
    if (pack_len < PACK_HEADER || pack_len > LONGEST_PACK || memcmp(pack, "EDG1", 4) != 0)
        return false;
    size_t c = two_bytes(pack + 24);
    if (c > PACK_EDGES || PACK_HEADER + 2 * c > pack_len || offset(pack, 0) != PACK_HEADER + 2 * c)
        return false;
    for (size_t i = 0; i < c; i++)
        if (offset(pack, i + 1) < offset(pack, i))
            return false;
    return offset(pack, c) == pack_len;
}

/* What every question on a pack refuses: 8, 1 to 4, then 5 for any edge. */
static uint8_t check_pack(const uint8_t *pack, size_t pack_len)
{
    Job job;
    Counts counts;
    if (!keeps_layout(pack, pack_len))
        return PACK;
    uint8_t refusal = prepare(pack + 4, BLOCK_LENGTH, &job, &counts);
    if (refusal != 0)
        return refusal;
    for (size_t i = 0; i < two_bytes(pack + 24); i++)
        if (!plain_valid(&job, pack + offset(pack, i), offset(pack, i + 1) - offset(pack, i)))
            return NOT_AN_EDGE;
    return 0;
}

uint8_t plain_pack_write(const uint8_t *block, size_t block_len, const uint64_t *numbers, size_t n, uint8_t *out,
                         size_t out_len, size_t *len)
{
    Job job;
    Counts counts;
    uint8_t refusal = prepare(block, block_len, &job, &counts);
    if (refusal != 0)
        return refusal;
    if (n > PACK_EDGES)
        return MANY;
    for (size_t i = 0; i < n; i++)
        if (numbers[i] >= counts.count)
            return BEYOND;

    uint8_t pack[LONGEST_PACK];
    memcpy(pack, "EDG1", 4);
    memcpy(pack + 4, block, BLOCK_LENGTH);
    put_two_bytes(pack + 24, n);
    size_t end = PACK_HEADER + 2 * n;
    put_two_bytes(pack + 26, end);
    for (size_t i = 0; i < n; i++) {
        end += build(&job, &counts, numbers[i], pack + end);
        put_two_bytes(pack + 28 + 2 * i, end);
    }
    if (out_len < end)
        return ROOM;
    memcpy(out, pack, end);
    *len = end;
    return 0;
}

uint8_t plain_pack_edge(const uint8_t *pack, size_t pack_len, size_t i, size_t *start, size_t *end)
{
    uint8_t refusal = check_pack(pack, pack_len);
    if (refusal != 0)
        return refusal;
    if (i >= two_bytes(pack + 24))
        return NO_SUCH_EDGE;
    *start = offset(pack, i);
    *end = offset(pack, i + 1);
    return 0;
}

static bool same_edges(const uint8_t *pack, size_t i, size_t j)
{
    size_t len = offset(pack, i + 1) - offset(pack, i);
    return len == offset(pack, j + 1) - offset(pack, j) &&
           memcmp(pack + offset(pack, i), pack + offset(pack, j), len) == 0;
}

uint8_t plain_pack_repeat(const uint8_t *pack, size_t pack_len, uint8_t *found, size_t *later, size_t *earlier)
{
    uint8_t refusal = check_pack(pack, pack_len);
    if (refusal != 0)
        return refusal;
    for (size_t j = 0; j < two_bytes(pack + 24); j++)
        for (size_t i = 0; i < j; i++)
            if (same_edges(pack, i, j)) {
                *found = 1;
                *later = j;
                *earlier = i;
                return 0;
            }
    *found = 0;
    return 0;
}

/* Document 02, L1: the edges one by one, and nothing written before the last. */
uint32_t plain_pack_numbers(const uint8_t *pack, size_t pack_len, uint64_t *numbers, size_t n, size_t *count)
{
    Job job;
    Counts counts;
    uint64_t number[PACK_EDGES];
    if (!keeps_layout(pack, pack_len))
        return PACK;
    uint8_t refusal = prepare(pack + 4, BLOCK_LENGTH, &job, &counts);
    if (refusal != 0)
        return refusal;
    size_t c = two_bytes(pack + 24);
    for (size_t i = 0; i < c; i++) {
        const uint8_t *edge = pack + offset(pack, i);
        size_t edge_len = offset(pack, i + 1) - offset(pack, i);
        if (!plain_valid(&job, edge, edge_len))
            return NOT_AN_EDGE + 65536 * (uint32_t)i;
        number[i] = number_of(&job, &counts, edge, edge_len);
    }
    if (n < c)
        return ROOM;
    memcpy(numbers, number, c * sizeof number[0]);
    *count = c;
    return 0;
}
