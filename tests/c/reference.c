/* Documents 01 and 02 in plain C, slow and literal. Orders and steps by walking, quotients by Euclid, t by counting points in boxes,
   the sum of resolution gaps by counting them in cubes, the list out of all pairs and sorted by the whole key. */
#include "reference.h"

#include <stdlib.h>
#include <string.h>

static int well_formed(uint32_t m, uint32_t p, uint32_t q)
{
    uint32_t size = (uint32_t)1 << m;
    return size <= p && p < 2 * size && 1 <= q && q < size;
}

/* ---- polynomials */

/* The degree of a polynomial that is not 0. */
static int degree_of(uint64_t a)
{
    return 63 - __builtin_clzll(a);
}

static void divide(uint64_t a, uint64_t b, uint64_t *quotient, uint64_t *remainder)
{
    *quotient = 0;
    while (a != 0 && degree_of(a) >= degree_of(b)) {
        int shift = degree_of(a) - degree_of(b);
        *quotient ^= (uint64_t)1 << shift;
        a ^= b << shift;
    }
    *remainder = a;
}

static uint64_t product(uint64_t a, uint64_t b)
{
    uint64_t sum = 0;
    for (int i = 0; i < 32; i++)
        if (a >> i & 1)
            sum ^= b << i;
    return sum;
}

static uint32_t remainder_of(uint64_t a, uint32_t p)
{
    uint64_t quotient, remainder;
    divide(a, p, &quotient, &remainder);
    return (uint32_t)remainder;
}

/* The first `digits` digits of y/p in powers of 1/x, for y of lower degree than p; the first is the highest. */
static uint64_t leading_digits(uint32_t y, uint32_t p, int digits)
{
    uint64_t quotient, remainder;
    divide((uint64_t)y << digits, p, &quotient, &remainder);
    return quotient;
}

/* ---- judging */

/* x times y modulo p of degree m, one step of a walk. */
static uint32_t next_power(uint32_t m, uint32_t p, uint32_t y)
{
    uint32_t moved = 2 * y;
    return moved >> m & 1 ? moved ^ p : moved;
}

/* The smallest e >= 1 with x^e = 1 (mod p) is 2^m - 1; where p is even there is no such e. A walk of 2^m - 1 steps says so. */
static int primitive(uint32_t m, uint32_t p)
{
    uint32_t period = ((uint32_t)1 << m) - 1, power = 1;
    if (p % 2 == 0)
        return 0;
    for (uint32_t e = 1; e <= period; e++) {
        power = next_power(m, p, power);
        if (power == 1)
            return e == period;
    }
    return 0;
}

/* Each partial quotient of q/p has degree one, and p and q have no common factor. */
static int linear_quotients(uint32_t p, uint32_t q)
{
    uint64_t above = p, below = q;
    while (below != 0) {
        uint64_t quotient, remainder;
        divide(above, below, &quotient, &remainder);
        if (degree_of(quotient) != 1)
            return 0;
        above = below;
        below = remainder;
    }
    return above == 1;
}

/* The first power of x, from x itself, that is q; 0 where none below 2^m - 1 is. */
static uint32_t step_of(uint32_t m, uint32_t p, uint32_t q)
{
    uint32_t period = ((uint32_t)1 << m) - 1, power = 1;
    for (uint32_t e = 1; e < period; e++) {
        power = next_power(m, p, power);
        if (power == q)
            return e;
    }
    return 0;
}

static int coprime(uint32_t a, uint32_t b)
{
    while (b != 0) {
        uint32_t r = a % b;
        a = b;
        b = r;
    }
    return a == 1;
}

uint32_t reference_judge(uint32_t m, uint32_t floor, uint32_t p, uint32_t q, uint32_t *step)
{
    if (!lawful_degree(m))
        return 1;
    if (!lawful_floor(floor))
        return 12;
    if (!well_formed(m, p, q))
        return 3;
    if (!primitive(m, p))
        return 4;
    if (!linear_quotients(p, q))
        return 5;
    uint32_t s = step_of(m, p, q);
    if (!coprime(s, ((uint32_t)1 << m) - 1))
        return 6;
    if (s < floor)
        return 11;
    *step = s;
    return 0;
}

/* The largest degree among the partial quotients of q/p, and the degree of the last divisor, the common factor. */
uint32_t reference_quotients(uint32_t m, uint32_t p, uint32_t q, uint32_t *largest, uint32_t *common)
{
    uint64_t above = p, below = q, quotient, remainder;
    if (!lawful_degree(m))
        return 1;
    if (!well_formed(m, p, q))
        return 3;
    for (*largest = 0; below != 0; above = below, below = remainder) {
        divide(above, below, &quotient, &remainder);
        if ((uint32_t)degree_of(quotient) > *largest)
            *largest = (uint32_t)degree_of(quotient);
    }
    *common = (uint32_t)degree_of(above);
    return 0;
}

/* ---- points in boxes */

/* q^j mod p for the coordinates j below s. */
static void powers_of(uint32_t p, uint32_t q, uint32_t s, uint32_t *powers)
{
    powers[0] = 1;
    for (uint32_t j = 1; j < s; j++)
        powers[j] = remainder_of(product(powers[j - 1], q), p);
}

/* Of the pair that was asked for last: the first m digits of each coordinate of each point h, and the generating matrices, row by row. */
static uint32_t digits[MOST_DEGREE][1u << MOST_DEGREE], matrices[MOST_DEGREE][MOST_DEGREE];

static void build_points(uint32_t m, uint32_t p, uint32_t q, uint32_t s)
{
    uint32_t powers[MOST_DEGREE];
    powers_of(p, q, s, powers);
    for (uint32_t j = 0; j < s; j++)
        for (uint32_t h = 0; h < (uint32_t)1 << m; h++)
            digits[j][h] = (uint32_t)leading_digits(remainder_of(product(h, powers[j]), p), p, (int)m);
}

/* A point's digits are linear in h: column k of coordinate j's matrix is what h = x^k has for digits. */
static void build_matrices(uint32_t m, uint32_t p, uint32_t q, uint32_t s)
{
    uint32_t powers[MOST_DEGREE];
    powers_of(p, q, s, powers);
    memset(matrices, 0, sizeof matrices);
    for (uint32_t j = 0; j < s; j++)
        for (uint32_t k = 0; k < m; k++) {
            uint64_t column = leading_digits(remainder_of(product((uint64_t)1 << k, powers[j]), p), p, (int)m);
            for (uint32_t i = 0; i < m; i++)
                matrices[j][i] |= (uint32_t)(column >> (m - 1 - i) & 1) << k;
        }
}

/* Whether all boxes that share[j] leading digits of each coordinate j below s make hold equally many points; the share has at most m
   digits. In two ways: */
typedef int even_test(uint32_t m, uint32_t s, const uint32_t *share);

/* Each point h is put into its box, then every box is looked at. */
static int boxes_even(uint32_t m, uint32_t s, const uint32_t *share)
{
    static uint32_t boxes[1u << MOST_DEGREE];
    uint32_t k = 0;
    for (uint32_t j = 0; j < s; j++)
        k += share[j];
    memset(boxes, 0, sizeof boxes[0] << k);
    for (uint32_t h = 0; h < (uint32_t)1 << m; h++) {
        uint32_t box = 0;
        for (uint32_t j = 0; j < s; j++)
            box = box << share[j] | digits[j][h] >> (m - share[j]);
        boxes[box]++;
    }
    for (uint32_t box = 0; box < (uint32_t)1 << k; box++)
        if (boxes[box] != (uint32_t)1 << (m - k))
            return 0;
    return 1;
}

/* The rows of the share are linearly independent, by elimination with a row for each lowest column. */
static int rows_independent(uint32_t m, uint32_t s, const uint32_t *share)
{
    uint32_t pivots[MOST_DEGREE] = {0};
    (void)m;
    for (uint32_t j = 0; j < s; j++)
        for (uint32_t i = 0; i < share[j]; i++) {
            uint32_t row = matrices[j][i];
            while (row != 0 && pivots[__builtin_ctz(row)] != 0)
                row ^= pivots[__builtin_ctz(row)];
            if (row == 0)
                return 0;
            pivots[__builtin_ctz(row)] = row;
        }
    return 1;
}

/* ---- t-values */

/* The next way to share the same number of digits among s coordinates; 0 behind the last. The first has all in coordinate 0. */
static int next_share(uint32_t *share, uint32_t s)
{
    uint32_t first = 0;
    while (first < s && share[first] == 0)
        first++;
    if (first + 1 >= s)
        return 0;
    uint32_t moved = share[first];
    share[first] = 0;
    share[0] = moved - 1;
    share[first + 1]++;
    return 1;
}

static uint32_t t_by(even_test *even, uint32_t m, uint32_t s)
{
    uint32_t t;
    for (t = 0; t < m; t++) {
        uint32_t share[MOST_DIMENSION] = {m - t};
        int all;
        do
            all = even(m, s, share);
        while (all && next_share(share, s));
        if (all)
            break;
    }
    return t;
}

uint32_t reference_t_by_counting(uint32_t m, uint32_t p, uint32_t q, uint32_t s)
{
    build_points(m, p, q, s);
    return t_by(boxes_even, m, s);
}

uint32_t reference_t_by_rank(uint32_t m, uint32_t p, uint32_t q, uint32_t s)
{
    build_matrices(m, p, q, s);
    return t_by(rows_independent, m, s);
}

uint32_t reference_t_value(uint32_t m, uint32_t p, uint32_t q, uint32_t dimension, uint32_t *t)
{
    if (!lawful_degree(m))
        return 1;
    if (dimension < 1 || dimension > MOST_DIMENSION)
        return 2;
    if (!well_formed(m, p, q))
        return 3;
    *t = m <= MOST_COUNTED ? reference_t_by_counting(m, p, q, dimension) : reference_t_by_rank(m, p, q, dimension);
    return 0;
}

uint32_t reference_count(uint32_t m, uint32_t p, uint32_t q, uint32_t dimension, uint32_t *t)
{
    return m > MOST_COUNTED ? 1 : reference_t_value(m, p, q, dimension, t);
}

/* ---- the sum of resolution gaps */

/* The resolution in dimension s: the largest l, 1 to m, for which the 2^(s l) congruent cubes hold equally many points, 0 if none. Where
   s l is above m there are more cubes than points, so they do not. */
static uint32_t resolution_by(even_test *even, uint32_t m, uint32_t s)
{
    uint32_t resolution = 0;
    for (uint32_t l = 1; s * l <= m; l++) {
        uint32_t share[MOST_DEGREE];
        for (uint32_t j = 0; j < s; j++)
            share[j] = l;
        if (even(m, s, share))
            resolution = l;
    }
    return resolution;
}

static uint32_t gaps_by(even_test *even, uint32_t m)
{
    uint32_t sum = 0;
    for (uint32_t s = 1; s <= m; s++)
        sum += m / s - resolution_by(even, m, s);
    return sum;
}

uint32_t reference_gaps_by_counting(uint32_t m, uint32_t p, uint32_t q)
{
    build_points(m, p, q, m);
    return gaps_by(boxes_even, m);
}

uint32_t reference_gaps_by_rank(uint32_t m, uint32_t p, uint32_t q)
{
    build_matrices(m, p, q, m);
    return gaps_by(rows_independent, m);
}

uint32_t reference_gaps(uint32_t m, uint32_t p, uint32_t q, uint32_t *sum)
{
    if (!lawful_degree(m))
        return 1;
    if (!well_formed(m, p, q))
        return 3;
    *sum = m <= MOST_CUBED ? reference_gaps_by_counting(m, p, q) : reference_gaps_by_rank(m, p, q);
    return 0;
}

/* ---- the ranked list and its pages */

/* All pairs of a degree that are accepted at floor 0, their steps, all t-values and the sum of gaps, in no rank. */
struct accepted {
    size_t count;
    uint32_t (*rows)[LONGEST_ROW];
};

static struct accepted *accepted_of(uint32_t m)
{
    static struct accepted known[MOST_DEGREE + 1];
    struct accepted *all = &known[m];
    uint32_t size = (uint32_t)1 << m;
    if (all->rows != NULL)
        return all;
    all->rows = malloc(sizeof all->rows[0] * size);
    for (uint32_t p = size; p < 2 * size; p++) {
        if (!primitive(m, p))
            continue;
        for (uint32_t q = 1; q < size; q++) {
            uint32_t *row = all->rows[all->count];
            if (!linear_quotients(p, q) || !coprime(step_of(m, p, q), size - 1))
                continue;
            row[0] = p;
            row[1] = q;
            row[2] = step_of(m, p, q);
            for (uint32_t s = LEAST_TOP; s <= MOST_TOP; s++)
                reference_t_value(m, p, q, s, &row[s]);
            reference_gaps(m, p, q, &row[MOST_TOP + 1]);
            all->count++;
        }
    }
    return all;
}

/* A ranked list; its rows are NULL until it is asked for. */
struct ranked {
    size_t count;
    uint32_t *rows;
};

static uint32_t compared_width;

/* By the numbers from t(3) to the last one, then p, then q. */
static int compare_rows(const void *left, const void *right)
{
    const uint32_t *a = left, *b = right;
    for (uint32_t i = LEAST_TOP; i < compared_width; i++)
        if (a[i] != b[i])
            return a[i] < b[i] ? -1 : 1;
    if (a[0] != b[0])
        return a[0] < b[0] ? -1 : 1;
    if (a[1] != b[1])
        return a[1] < b[1] ? -1 : 1;
    return 0;
}

const uint32_t *reference_list(struct selection l, size_t *count)
{
    static struct ranked lists[MOST_DEGREE + 1][MOST_TOP + 1][MOST_FLOOR + 1][2];
    struct ranked *list = &lists[l.degree][l.top][l.floor][l.gaps != 0];
    struct accepted *all = accepted_of(l.degree);
    uint32_t width = row_width(l);
    if (list->rows == NULL) {
        list->rows = malloc(sizeof(uint32_t) * (all->count * width + 1));
        for (size_t i = 0; i < all->count; i++) {
            uint32_t *row = list->rows + list->count * width;
            if (all->rows[i][2] < l.floor)
                continue;
            memcpy(row, all->rows[i], sizeof(uint32_t) * (l.top + 1));
            if (l.gaps != 0)
                row[l.top + 1] = all->rows[i][MOST_TOP + 1];
            list->count++;
        }
        compared_width = width;
        qsort(list->rows, list->count, sizeof(uint32_t) * width, compare_rows);
    }
    *count = list->count;
    return list->rows;
}

uint32_t reference_page(struct selection l, int after, uint32_t p, uint32_t q, size_t slice, const uint32_t **rows, size_t *count,
                        uint32_t *more)
{
    uint32_t step, refusal, width = row_width(l);
    size_t all, place = 0;
    if (!lawful_degree(l.degree))
        return 1;
    if (!lawful_top(l.top))
        return 2;
    if (!lawful_floor(l.floor))
        return 12;
    if (after && (refusal = reference_judge(l.degree, l.floor, p, q, &step)) != 0)
        return refusal;
    if (slice < width)
        return 7;
    const uint32_t *list = reference_list(l, &all);
    if (after) {
        while (list[place * width] != p || list[place * width + 1] != q)
            place++;
        place++;
    }
    *rows = list + place * width;
    *count = slice / width < all - place ? slice / width : all - place;
    *more = place + *count < all;
    return 0;
}

/* ---- points */

uint32_t reference_points(uint32_t m, uint32_t floor, uint32_t p, uint32_t q, uint32_t first, uint32_t *words, size_t slice,
                          size_t *count)
{
    uint32_t step, x = 1, refusal = reference_judge(m, floor, p, q, &step), last;
    if (refusal != 0)
        return refusal;
    last = ((uint32_t)1 << m) - 2;
    if (first > last)
        return 8;
    *count = 0;
    for (uint32_t i = 0; i <= last && *count < slice; i++) {
        if (i >= first)
            words[(*count)++] = (uint32_t)leading_digits(x, p, 32);
        x = remainder_of(product(q, x), p);
    }
    return 0;
}
