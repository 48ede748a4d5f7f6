/* The header's functions in plain C made fast: what the library's figures are set beside. Nothing here is proved; tests/c
   compares it with the reference as it does the library. A page is one walk over all pairs, with the slice as workspace. Of a pair and its
   mirror, which has the inverse of q, one is worked on: both are accepted or none, with the same t-values. Powers go by tables of squares
   and of products, and t by the lightest linear relation between rows x^i q^j mod p, looked for in whole ranges of rows, each dimension
   starting where the one before ended. The steps of the rows that are kept come last, by giant steps; judging walks through the powers
   of x. The sum of resolution gaps goes digit by digit, over the same rows; and once more t by counting points in boxes. */
#include "fast.h"
#include "fenyurka.h"

#include <string.h>

enum { MOST = 16, MOST_FLOOR = 32, MOST_DIMENSION = 8 };

/* The prime divisors of 2^m - 1. */
static const uint16_t divisors[MOST + 1][4] = {
    [2] = {3},          [3] = {7},        [4] = {3, 5},        [5] = {31},     [6] = {3, 7},
    [7] = {127},        [8] = {3, 5, 17}, [9] = {7, 73},       [10] = {3, 11, 31}, [11] = {23, 89},
    [12] = {3, 5, 7, 13}, [13] = {8191},  [14] = {3, 43, 127}, [15] = {7, 31, 151}, [16] = {3, 5, 17, 257},
};

/* How many digits a has. */
static inline uint32_t size(uint32_t a)
{
    return a == 0 ? 0 : 32 - (uint32_t)__builtin_clz(a);
}

/* The place of the highest digit of a, which is not 0. */
static inline uint64_t highest(uint64_t a)
{
    return 63 ^ (uint64_t)__builtin_clzll(a);
}

/* Of a and a + b the one of lower degree, for b that has a's highest term or one above. */
static inline uint32_t lower(uint32_t a, uint32_t b)
{
    return (a ^ b) < a ? a ^ b : a;
}

static inline uint32_t shift(uint32_t p, uint32_t a)
{
    return lower(2 * a, p);
}

static uint32_t times(uint32_t m, uint32_t p, uint32_t a, uint32_t b)
{
    uint32_t sum = 0;
    b <<= 32 - m;
    for (uint32_t i = m; i > 0; i--, b <<= 1)
        sum = shift(p, sum) ^ (a & (uint32_t)((int32_t)b >> 31));
    return sum;
}

/* ---- additive maps of residues */

/* A map's table has, at each place, the images of all numbers of so many digits: an image is the sum of those of the parts. A narrow
   table is filled sooner, a wide one read sooner. */
enum { NARROW = 4, WIDE = 8, NARROW_SIZE = MOST / NARROW << NARROW, WIDE_SIZE = MOST / WIDE << WIDE };

static inline void add_to_each(uint32_t *restrict to, const uint32_t *restrict from, uint32_t count, uint32_t a)
{
    for (uint32_t i = 0; i < count; i++)
        to[i] = from[i] ^ a;
}

/* From the images of the powers of x. The first lengths are written out, so that they are constants for the compiler. */
static inline void tabulate(uint32_t *table, uint32_t digits, const uint32_t *images)
{
    for (uint32_t place = 0; place < MOST; place += digits, table += 1u << digits) {
        table[0] = 0;
        add_to_each(table + 1, table, 1, images[place]);
        add_to_each(table + 2, table, 2, images[place + 1]);
        add_to_each(table + 4, table, 4, images[place + 2]);
        add_to_each(table + 8, table, 8, images[place + 3]);
        for (uint32_t i = 4; i < digits; i++)
            add_to_each(table + (1u << i), table, 1u << i, images[place + i]);
    }
}

static inline uint32_t image(const uint32_t *table, uint32_t digits, uint32_t a)
{
    uint32_t sum = 0;
    for (uint32_t place = 0; place < MOST; place += digits, table += 1u << digits)
        sum ^= table[a >> place & ((1u << digits) - 1)];
    return sum;
}

/* The map is times a. */
static inline void tabulate_products(uint32_t *table, uint32_t digits, uint32_t p, uint32_t a)
{
    uint32_t images[MOST];
    for (uint32_t i = 0; i < MOST; i++, a = shift(p, a))
        images[i] = a;
    tabulate(table, digits, images);
}

/* ---- orders */

/* The residues modulo p, and the table of their squares. */
struct residues {
    uint32_t m, p, squares[NARROW_SIZE];
};

static void begin_residues(struct residues *r, uint32_t m, uint32_t p)
{
    uint32_t images[MOST], i = 0;
    r->m = m;
    r->p = p;
    for (; 2 * i < m; i++)
        images[i] = 1u << 2 * i;
    for (; i < MOST; i++)
        images[i] = shift(p, shift(p, images[i - 1]));
    tabulate(r->squares, NARROW, images);
}

/* x^e. As many leading digits of e as always make a number below m are taken at once. */
static uint32_t power_of_x(const struct residues *r, uint32_t e)
{
    uint32_t digits = size(r->m) - 1, left = size(e) > digits ? size(e) - digits : 0, result = 1u << (e >> left);
    while (left-- > 0) {
        result = image(r->squares, NARROW, result);
        if (e >> left & 1)
            result = shift(r->p, result);
    }
    return result;
}

/* a^e for e above 0, by the table of the products with a. */
static uint32_t power(const struct residues *r, const uint32_t *products, uint32_t a, uint32_t e)
{
    uint32_t result = a;
    for (uint32_t left = size(e) - 1; left-- > 0;) {
        result = image(r->squares, NARROW, result);
        if (e >> left & 1)
            result = image(products, NARROW, result);
    }
    return result;
}

/* An even p has no order, and one with an even number of terms the factor x + 1. */
static inline int odd_terms(uint32_t p)
{
    return p & 1 && __builtin_parity(p);
}

/* x^(2^m) is x, and no power of x to a proper divisor of 2^m - 1 is 1. Where 3 divides it, the power y to a third of it is asked for
   y^2 + y + 1 = 0: then y^3 is 1, and y is 1 modulo no factor of p. */
static int primitive(struct residues *r, uint32_t m, uint32_t p)
{
    uint32_t period = (1u << m) - 1, third = m % 2 == 0;
    begin_residues(r, m, p);
    if (third) {
        uint32_t y = power_of_x(r, period / 3);
        if ((image(r->squares, NARROW, y) ^ y) != 1)
            return 0;
    } else if (power_of_x(r, 1u << m) != 2) {
        return 0;
    }
    for (uint32_t k = third; k < 4 && divisors[m][k] != 0; k++)
        if (power_of_x(r, period / divisors[m][k]) == 1)
            return 0;
    return 1;
}

static int of_full_order(const struct residues *r, uint32_t a)
{
    uint32_t products[NARROW_SIZE];
    tabulate_products(products, NARROW, r->p, a);
    for (int k = 0; k < 4 && divisors[r->m][k] != 0; k++)
        if (power(r, products, a, ((1u << r->m) - 1) / divisors[r->m][k]) == 1)
            return 0;
    return 1;
}

static int linear_quotients(uint32_t p, uint32_t q)
{
    while (q != 0) {
        int d = __builtin_clz(q) - __builtin_clz(p);
        if (d != 1)
            return 0;
        uint32_t r = p ^ q << 1;
        if ((r ^ q) < r)
            r ^= q;
        if (r >= q && __builtin_clz(r) == __builtin_clz(q))
            return 0;
        p = q;
        q = r;
    }
    return p == 1;
}

/* The largest degree among the partial quotients, and the degree of the common factor. */
static FenyurkaQuotients quotients_of(uint32_t p, uint32_t q)
{
    FenyurkaQuotients found = {0};
    while (q != 0) {
        uint32_t zeros = (uint32_t)__builtin_clz(q), degree = zeros - (uint32_t)__builtin_clz(p), r = p ^ q << degree;
        if (found.quotient_degree < degree)
            found.quotient_degree = degree;
        while (r != 0 && (uint32_t)__builtin_clz(r) <= zeros)
            r ^= q << (zeros - (uint32_t)__builtin_clz(r));
        p = q;
        q = r;
    }
    found.common_degree = 31 - (uint32_t)__builtin_clz(p);
    return found;
}

static uint32_t step_of(uint32_t p, uint32_t q)
{
    uint32_t a = 2, e = 1;
    for (; a != q; e++)
        a = shift(p, a);
    return e;
}

/* No power of x below the floor is q, which has the degree m - 1, as its quotients are linear. */
static int reaches_floor(uint32_t m, uint32_t p, uint32_t q, uint32_t floor)
{
    uint32_t a = 1u << (m - 1);
    for (uint32_t e = m - 1; e < floor; e++) {
        if (a == q)
            return 0;
        a = shift(p, a);
    }
    return 1;
}

static int well_formed(uint32_t m, uint32_t p, uint32_t q)
{
    return p >> m == 1 && q != 0 && q >> m == 0;
}

/* The refusals 3 to 6 and 11. Where there is none, the table of squares is filled. */
static uint32_t refusal_of(struct residues *r, uint32_t m, uint32_t floor, uint32_t p, uint32_t q)
{
    if (!well_formed(m, p, q))
        return 3;
    if (!odd_terms(p) || !primitive(r, m, p))
        return 4;
    if (!linear_quotients(p, q))
        return 5;
    if (!of_full_order(r, q))
        return 6;
    return reaches_floor(m, p, q, floor) ? 0 : 11;
}

/* What a refusal carries beside its number. */
static uint32_t degree_told(uint32_t refusal, uint32_t p, uint32_t q)
{
    return refusal == 5 ? quotients_of(p, q).quotient_degree : 0;
}

FenyurkaJudgement fenyurka_judge(uint32_t degree, uint32_t floor, uint32_t p, uint32_t q)
{
    if (degree - 2 > MOST - 2)
        return (FenyurkaJudgement){.refusal = 1};
    if (floor > MOST_FLOOR)
        return (FenyurkaJudgement){.refusal = 12};
    struct residues r;
    uint32_t refusal = refusal_of(&r, degree, 0, p, q);
    if (refusal != 0)
        return (FenyurkaJudgement){.refusal = refusal, .quotient_degree = degree_told(refusal, p, q)};
    uint32_t step = step_of(p, q);
    if (step < floor)
        return (FenyurkaJudgement){.refusal = 11};
    return (FenyurkaJudgement){.step = step};
}

FenyurkaQuotients fenyurka_quotients(uint32_t degree, uint32_t p, uint32_t q)
{
    if (degree - 2 > MOST - 2)
        return (FenyurkaQuotients){.refusal = 1};
    if (!well_formed(degree, p, q))
        return (FenyurkaQuotients){.refusal = 3};
    return quotients_of(p, q);
}

/* ---- t-values: the lightest relation between leading digits, m + 1 where there is none as light */

/* Row i of coordinate c is x^i q^c mod p. A relation is a sum of rows of the coordinates from 1 on. For each of these it weighs the rows
   up to the last one in the sum, and for coordinate 0 the digits of the sum. The rows taken so far, highest coordinate first, are the
   path. One word has the value of a sum and, below it, its label: a digit for each row of the path, 1 if the row is in the sum. */
enum { LABEL = 32 };

struct search {
    uint32_t m, p, stop, least, last;
    /* For each row of the path its number in its coordinate, from 1, and all digits of a label before that coordinate. A basis of the
       path's sums, by their highest digits. */
    uint32_t numbers[LABEL], before[LABEL];
    uint64_t basis[2 * LABEL], rows[MOST_DIMENSION][MOST];
};

static uint32_t weight_of(const struct search *s, uint64_t sum)
{
    uint32_t weight = size((uint32_t)(sum >> LABEL)), label = (uint32_t)sum;
    while (label != 0) {
        uint64_t newest = highest(label);
        weight += s->numbers[newest];
        label &= s->before[newest];
    }
    return weight;
}

static inline uint32_t lighter(const struct search *s, uint64_t sum, uint32_t least)
{
    uint32_t weight = weight_of(s, sum);
    return weight < least ? weight : least;
}

/* The least of `least` and the weights of the sum with any vectors of the basis at these places added. The choices of places go up as
   numbers; from one to the next the vectors at the places that change are added. */
static uint32_t lightest(const struct search *s, uint64_t sum, uint64_t places, uint32_t least)
{
    uint64_t chosen = 0, next;
    while ((next = (chosen - places) & places) != 0) {
        for (uint64_t changed = chosen ^ next; changed != 0; changed &= changed - 1)
            sum ^= s->basis[__builtin_ctzll(changed)];
        least = lighter(s, sum, least);
        chosen = next;
    }
    return least;
}

/* Where a search stands: the places of the basis that are held, the label of the next row, the least weight so far, and the limit below which
   the word of a lighter relation with the next row as its newest is. */
struct stand {
    uint64_t held, label, limit;
    uint32_t least;
};

/* The rows of the coordinates above count for `counted`. */
static inline struct stand stand_at(uint32_t begin, uint32_t counted, uint32_t least, uint64_t held)
{
    return (struct stand){.held = held, .label = 1ull << begin, .limit = 1ull << (LABEL + least - counted - 2), .least = least};
}

static inline void lower_least(struct stand *at, uint32_t least)
{
    at->limit >>= at->least - least;
    at->least = least;
}

/* Takes row i of coordinate c, which begins on the path at `begin`. The relations below the limit with this row as their newest are the
   reduced row with sums of the basis below the limit, and there are none where the reduced row is not below it. */
static inline void take(struct search *s, struct stand *at, uint32_t c, uint32_t i, uint32_t begin)
{
    uint64_t sum = s->rows[c][i] | at->label, place = highest(sum);
    while (at->held >> place & 1) {
        sum ^= s->basis[place];
        place = highest(sum);
    }
    s->numbers[begin + i] = i + 1;
    s->before[begin + i] = (1u << begin) - 1;
    if (sum < at->limit) {
        uint64_t places = at->held & (at->limit - 1);
        uint32_t least = lighter(s, sum, at->least);
        lower_least(at, places == 0 ? least : lightest(s, sum, places, least));
    }
    s->basis[place] = sum;
    at->held |= 1ull << place;
    at->label <<= 1;
    at->limit >>= 1;
}

/* Coordinate 1: nothing is below, so its rows are taken one after the other. */
static inline uint32_t search_last(struct search *s, uint32_t begin, uint32_t counted, uint32_t least, uint64_t held)
{
    struct stand at = stand_at(begin, counted, least, held);
    for (uint32_t i = 0; counted + s->stop + i < at.least; i++)
        take(s, &at, 1, i, begin);
    return at.least;
}

/* How many rows a range has beyond its lowest number. Any width is right; this one is quick: t rows of a path, with t as known so far, are
   taken and do not count, and the coordinates from c down to 2 share what is left of them. */
static inline uint32_t share_of(const struct search *s, uint32_t c, uint32_t begin, uint32_t counted, uint32_t least)
{
    return (s->m + 1 - least - (begin - counted) + c - 2) / (c - 1);
}

/* Coordinate c takes rows in ranges: all numbers of rows from `low` to what is taken are searched at once, with all these rows on the path
   and only `low` counted. The first coordinate of a path has one row at least. */
static uint32_t search_ranges(struct search *s, uint32_t c, uint32_t begin, uint32_t counted, uint32_t least, uint64_t held)
{
    struct stand at = stand_at(begin, counted, least, held);
    uint32_t low = begin == 0, high = low + share_of(s, c, begin, counted, least), stop = counted + s->stop;
    for (uint32_t i = 0;; i++) {
        if (i >= high || stop + i >= at.least) {
            if (stop + low < at.least)
                lower_least(&at, c == 2 ? search_last(s, begin + i, counted + low, at.least, at.held)
                                        : search_ranges(s, c - 1, begin + i, counted + low, at.least, at.held));
            if (stop + i >= at.least)
                return at.least;
            low = i + 1;
            high = low + share_of(s, c, begin, counted, at.least);
        }
        take(s, &at, c, i, begin);
    }
}

static void add_rows(struct search *s, uint32_t c, uint32_t a)
{
    for (uint32_t i = 0; i < s->m; i++, a = shift(s->p, a))
        s->rows[c][i] = (uint64_t)a << LABEL;
}

/* Begins behind dimension 2, whose t is given. A lighter relation has one more row than is counted and, where q has an inverse, a value other
   than 0: without it the relation would be one of the dimension before. */
static void begin_search(struct search *s, uint32_t m, uint32_t p, uint32_t q, uint32_t t, int invertible)
{
    s->m = m;
    s->p = p;
    s->stop = invertible ? 2 : 1;
    s->least = m + 1 - t;
    s->last = 2;
    add_rows(s, 1, q);
}

/* t of the next dimension, which is s->last + 1. Its first new row is q times one of the coordinate before: a sum of rows of coordinate 1. */
static uint32_t next_t(struct search *s)
{
    uint32_t c = s->last++, before = (uint32_t)(s->rows[c - 1][0] >> LABEL);
    uint64_t product = 0;
    for (uint32_t i = 0; i < s->m; i++)
        product ^= s->rows[1][i] & -(uint64_t)(before >> i & 1);
    add_rows(s, c, (uint32_t)(product >> LABEL));
    s->least = search_ranges(s, c, 0, 0, s->least, 0);
    return s->m + 1 - s->least;
}

/* In dimension 2 the quotients say it. */
FenyurkaTValue fenyurka_t_value(uint32_t degree, uint32_t p, uint32_t q, uint32_t dimension)
{
    if (degree - 2 > MOST - 2)
        return (FenyurkaTValue){.refusal = 1};
    if (dimension - 1 > MOST_DIMENSION - 1)
        return (FenyurkaTValue){.refusal = 2};
    if (!well_formed(degree, p, q))
        return (FenyurkaTValue){.refusal = 3};
    if (dimension == 1)
        return (FenyurkaTValue){.t = 0};
    struct search s;
    FenyurkaQuotients found = quotients_of(p, q);
    uint32_t t = found.quotient_degree > found.common_degree ? found.quotient_degree - 1 : found.common_degree;
    begin_search(&s, degree, p, q, t, found.common_degree == 0);
    while (s.last < dimension)
        t = next_t(&s);
    return (FenyurkaTValue){.t = t};
}

/* ---- the sum of resolution gaps */

/* The largest dimension up to `most` in which the first l rows of every coordinate are free. Those of coordinate 0 are the powers of x
   below x^l, so of any other row only what is from x^l on counts. */
static uint32_t free_dimensions(uint32_t p, const uint32_t *powers, uint32_t l, uint32_t most)
{
    uint32_t taken[MOST], count = 0;
    for (uint32_t s = 1; s < most; s++) {
        uint32_t row = powers[s];
        for (uint32_t i = 0; i < l; i++, row = shift(p, row)) {
            uint32_t v = row;
            for (uint32_t k = 0; k < count; k++)
                v = (v ^ taken[k]) < v ? v ^ taken[k] : v;
            if (v >> l == 0)
                return s;
            taken[count++] = v;
        }
    }
    return most;
}

/* The sum over s of floor(m/s) - l_s is the sum over l of floor(m/l) - s_l; where l is above m/2 nothing is missing. */
static uint32_t sum_of_gaps(uint32_t m, uint32_t p, uint32_t q)
{
    uint32_t products[NARROW_SIZE], powers[MOST] = {1}, sum = 0;
    tabulate_products(products, NARROW, p, q);
    for (uint32_t s = 1; s < m; s++)
        powers[s] = image(products, NARROW, powers[s - 1]);
    for (uint32_t l = 1; l <= m / 2; l++)
        sum += m / l - free_dimensions(p, powers, l, m / l);
    return sum;
}

FenyurkaGaps fenyurka_sum_of_gaps(uint32_t degree, uint32_t p, uint32_t q)
{
    if (degree - 2 > MOST - 2)
        return (FenyurkaGaps){.refusal = 1};
    if (!well_formed(degree, p, q))
        return (FenyurkaGaps){.refusal = 3};
    return (FenyurkaGaps){.delta = sum_of_gaps(degree, p, q)};
}

/* ---- t-values by counting */

enum { MOST_COUNTED = 8, MOST_POINTS = 1 << MOST_COUNTED };

/* The first m digits of every coordinate of every point, and a shape of m - t digits among s coordinates. */
struct points {
    uint32_t m, s, t, digits[8][MOST_POINTS], shape[8];
};

static void build(struct points *a, uint32_t p, uint32_t q)
{
    uint32_t power = 1;
    for (uint32_t j = 0; j < a->s; j++, power = times(a->m, p, power, q))
        for (uint32_t h = 0; h < (uint32_t)1 << a->m; h++) {
            uint32_t rest = times(a->m, p, h, power), digits = 0;
            for (uint32_t i = 0; i < a->m; i++, rest = shift(p, rest))
                digits = 2 * digits | 2 * rest >> a->m;
            a->digits[j][h] = digits;
        }
}

static int fills_evenly(const struct points *a)
{
    uint32_t boxes[MOST_POINTS] = {0}, counts[MOST_POINTS] = {0}, all = (uint32_t)1 << a->m;
    for (uint32_t j = 0; j < a->s; j++)
        for (uint32_t h = 0; h < all; h++)
            boxes[h] = boxes[h] << a->shape[j] | a->digits[j][h] >> (a->m - a->shape[j]);
    for (uint32_t h = 0; h < all; h++)
        counts[boxes[h]]++;
    for (uint32_t b = 0; b < all >> a->t; b++)
        if (counts[b] != (uint32_t)1 << a->t)
            return 0;
    return 1;
}

/* Whether every shape is filled evenly that begins as this one does and shares the digits left from coordinate j on. */
static int every_shape(struct points *a, uint32_t j, uint32_t left)
{
    a->shape[j] = left;
    if (j + 1 == a->s)
        return fills_evenly(a);
    for (uint32_t d = 0; d <= left; d++) {
        a->shape[j] = d;
        if (!every_shape(a, j + 1, left - d))
            return 0;
    }
    return 1;
}

FenyurkaTValue fenyurka_count_t_value(uint32_t degree, uint32_t p, uint32_t q, uint32_t dimension)
{
    struct points a = {.m = degree, .s = dimension};
    if (degree - 2 > MOST_COUNTED - 2)
        return (FenyurkaTValue){.refusal = 1};
    if (dimension - 1 > 7)
        return (FenyurkaTValue){.refusal = 2};
    if (!well_formed(degree, p, q))
        return (FenyurkaTValue){.refusal = 3};
    build(&a, p, q);
    while (a.t < degree && !every_shape(&a, 0, degree - a.t))
        a.t++;
    return (FenyurkaTValue){.t = a.t};
}

/* ---- small factors */

/* The irreducible polynomials of degree 2 to 5. */
static const uint8_t irreducible[] = {7, 11, 13, 19, 25, 31, 37, 41, 47, 55, 59, 61};

/* The residues modulo those of degree below m stand side by side in one word: those of x^16, a table for the terms below, and the lowest and
   the topmost digits of all. */
struct sieve {
    uint64_t leading, lowest, topmost, table[NARROW_SIZE];
};

static void begin_sieve(struct sieve *sieve, uint32_t m)
{
    uint64_t images[MOST + 1] = {0}, *table = sieve->table;
    sieve->lowest = sieve->topmost = 0;
    for (uint32_t k = 0, at = 0; k < sizeof irreducible && size(irreducible[k]) <= m; k++) {
        uint32_t degree = size(irreducible[k]) - 1, a = 1;
        for (uint32_t i = 0; i <= m; i++, a = shift(irreducible[k], a))
            images[i] |= (uint64_t)a << at;
        sieve->lowest |= 1ull << at;
        at += degree;
        sieve->topmost |= 1ull << (at - 1);
    }
    sieve->leading = images[MOST];
    for (uint32_t place = 0; place < MOST; place += NARROW, table += 1u << NARROW) {
        table[0] = 0;
        for (uint32_t i = 0; i < NARROW; i++)
            for (uint32_t a = 0; a < 1u << i; a++)
                table[(1u << i) + a] = table[a] ^ images[place + i];
    }
}

/* Less 1, a residue 0 gets a topmost digit that it had not; where there is none, nothing is borrowed from the next. */
static int has_small_factor(const struct sieve *sieve, uint32_t p)
{
    uint64_t residues = sieve->leading;
    for (uint32_t place = 0; place < MOST; place += NARROW)
        residues ^= sieve->table[(place / NARROW << NARROW) + (p >> place & ((1u << NARROW) - 1))];
    return ((residues - sieve->lowest) & ~residues & sieve->topmost) != 0;
}

/* ---- pages */

enum { MOST_YOUNG = 64 };

/* In a row the numbers that rank it stand at 3 .. last: t(3) .. t(top), then the sum of gaps where rows have it. New rows wait in order, as
   young ones, and are then merged, so that the others move seldom. Where `rows` is NULL, pairs are only counted. */
struct page {
    uint32_t m, top, last, floor, after, position[FENYURKA_LONGEST_ROW], *rows, more, young[MOST_YOUNG * FENYURKA_LONGEST_ROW];
    size_t count, room, young_count, young_room;
    struct sieve sieve;
};

/* Compares the ranks, then p and q: below, equal or above 0. */
static int compare(const uint32_t *a, const uint32_t *b, uint32_t last)
{
    for (uint32_t i = 3; i <= last; i++)
        if (a[i] != b[i])
            return a[i] < b[i] ? -1 : 1;
    if (a[0] != b[0])
        return a[0] < b[0] ? -1 : 1;
    return a[1] < b[1] ? -1 : a[1] > b[1];
}

/* How many of these rows, which ascend, stand before the row. */
static size_t rows_before(const uint32_t *rows, size_t count, const uint32_t *row, uint32_t last)
{
    size_t from = 0;
    while (from < count) {
        size_t middle = (from + count) / 2;
        if (compare(row, rows + middle * (last + 1), last) < 0)
            count = middle;
        else
            from = middle + 1;
    }
    return from;
}

/* Moves these rows up by so many places and puts the row before them. */
static void put(uint32_t *rows, size_t count, size_t by, const uint32_t *row, size_t width)
{
    memmove(rows + by * width, rows, count * width * sizeof row[0]);
    memcpy(rows + (by - 1) * width, row, width * sizeof row[0]);
}

/* The young rows join the others, from the last on; the last ones of all go where there is no room. */
static void merge(struct page *page)
{
    size_t width = page->last + 1, others = page->count, young = page->young_count;
    while (others + young > page->room) {
        const uint32_t *last = page->young + (young - 1) * width;
        if (others > 0 && compare(last, page->rows + (others - 1) * width, page->last) < 0)
            others--;
        else
            young--;
        page->more = 1;
    }
    page->count = others + young;
    page->young_count = 0;
    for (; young > 0; young--) {
        const uint32_t *row = page->young + (young - 1) * width;
        size_t place = rows_before(page->rows, others, row, page->last);
        put(page->rows + place * width, others - place, young, row, width);
        others = place;
    }
}

static void add(struct page *page, const uint32_t *row)
{
    size_t width = page->last + 1;
    if (page->young_count == page->young_room)
        merge(page);
    size_t place = rows_before(page->young, page->young_count, row, page->last);
    put(page->young + place * width, page->young_count - place, 1, row, width);
    page->young_count++;
}

static const uint32_t *worst_of(const struct page *page)
{
    return page->rows + (page->room - 1) * (page->last + 1);
}

/* A row with its t-values. The mirror has a sum of gaps of its own. */
static void offer(struct page *page, uint32_t *row)
{
    if (page->last > page->top)
        row[page->last] = sum_of_gaps(page->m, row[0], row[1]);
    if (page->after && compare(row, page->position, page->last) <= 0)
        return;
    if (page->count == page->room && compare(row, worst_of(page), page->last) > 0)
        page->more = 1;
    else
        add(page, row);
}

/* Fills the t-values in, up to the first that says that the row and its mirror are not on the page: whether there is none. */
static int fill_t_values(struct page *page, uint32_t *row)
{
    struct search s;
    int after = (int)page->after, full = page->count == page->room;
    begin_search(&s, page->m, row[0], row[1], 0, 1);
    for (uint32_t i = 3; i <= page->top; i++) {
        row[i] = next_t(&s);
        if (after && row[i] < page->position[i])
            return 0;
        after = after && row[i] == page->position[i];
        if (full && row[i] > worst_of(page)[i]) {
            page->more = 1;
            return 0;
        }
        full = full && row[i] == worst_of(page)[i];
    }
    return 1;
}

static int accepted(uint32_t m, uint32_t p, uint32_t q)
{
    struct residues r;
    return primitive(&r, m, p) && of_full_order(&r, q);
}

/* The pair and its mirror, as far as they reach the floor. */
static void add_pairs(struct page *page, uint32_t p, uint32_t q, uint32_t inverse)
{
    uint32_t row[FENYURKA_LONGEST_ROW] = {p, q};
    int reaches = reaches_floor(page->m, p, q, page->floor), mirror_reaches = reaches_floor(page->m, p, inverse, page->floor);
    if (page->rows == NULL) {
        page->count += (size_t)(reaches + mirror_reaches);
        return;
    }
    if (!(reaches || mirror_reaches) || !fill_t_values(page, row))
        return;
    if (reaches)
        offer(page, row);
    row[1] = inverse;
    if (mirror_reaches)
        offer(page, row);
}

static inline void leaf(struct page *page, uint32_t p, uint32_t q, uint32_t inverse)
{
    if (odd_terms(p) && !has_small_factor(&page->sieve, p) && accepted(page->m, p, q))
        add_pairs(page, p, q, inverse);
}

static void walk(struct page *page, uint32_t left, uint32_t k, uint32_t first, uint32_t last, uint32_t both);

static inline void meet(struct page *page, uint32_t left, uint32_t k, uint32_t first, uint32_t last, uint32_t both)
{
    if (left == 0)
        leaf(page, k, first, last);
    else
        walk(page, left, k, first, last, both);
}

/* The quotients of a pair are x or x + 1, and its mirror has them in reverse order. So the walk goes from the middle outwards: k is the
   continuant of the quotients so far, `first`, `last` and `both` those without the first, the last and both of them. While the quotients
   read the same in reverse, one of two mirrors is left out; where they do so to the end, q^2 is 1, and q is not of full order. */
static void walk(struct page *page, uint32_t left, uint32_t k, uint32_t first, uint32_t last, uint32_t both)
{
    uint32_t before = k << 1 ^ first, behind = k << 1 ^ last, around = behind << 1 ^ first << 1 ^ both;
    meet(page, left - 1, around, behind, before, k);
    meet(page, left - 1, around ^ before, behind ^ k, before, k);
    meet(page, left - 1, around ^ before ^ behind ^ k, behind ^ k, before ^ k, k);
    if (first != last)
        meet(page, left - 1, around ^ behind, behind, before ^ k, k);
}

/* From no quotient, or in odd degrees from either middle one. */
static void walk_all(struct page *page)
{
    begin_sieve(&page->sieve, page->m);
    if (page->m % 2 == 0) {
        walk(page, page->m / 2, 1, 0, 0, 1);
    } else {
        walk(page, page->m / 2, 2, 1, 1, 0);
        walk(page, page->m / 2, 3, 1, 1, 0);
    }
}

/* The first e >= 1 with x^e = q. Of the powers x^(b i), i = 1, 2, .. the first that is some q x^j with j below b gives b i - j. The products
   q x^j stand in chains by their lowest digits: a link has the product and, below it, the next link, 0 for none. */
static uint32_t giant_step_of(uint32_t m, uint32_t p, uint32_t q)
{
    enum { CHAINS = 1 << MOST / 2 };
    struct residues r;
    uint64_t links[CHAINS + 1];
    uint32_t b = 1u << (m + 1) / 2, chains[CHAINS] = {0}, table[WIDE_SIZE];
    for (uint32_t j = 1; j <= b; j++, q = shift(p, q)) {
        links[j] = (uint64_t)q << 32 | chains[q % CHAINS];
        chains[q % CHAINS] = j;
    }
    begin_residues(&r, m, p);
    uint32_t giant = power_of_x(&r, b);
    tabulate_products(table, WIDE, p, giant);
    for (uint32_t power = giant, e = b;; power = image(table, WIDE, power), e += b) {
        uint32_t j = chains[power % CHAINS];
        while (j != 0 && links[j] >> 32 != power)
            j = (uint32_t)links[j];
        if (j != 0)
            return e + 1 - j;
    }
}

/* Behind its mirror a row has what the step lacks to the period. */
static void fill_steps(const struct page *page)
{
    uint32_t *row = page->rows, p = 0, q = 0, step = 0;
    for (size_t i = 0; i < page->count; i++, row += page->last + 1) {
        if (row[0] == p && times(page->m, p, row[1], q) == 1)
            step = (1u << page->m) - 1 - step;
        else
            step = giant_step_of(page->m, row[0], row[1]);
        p = row[0];
        q = row[1];
        row[2] = step;
    }
}

static FenyurkaPage fill(struct page *page, uint32_t *rows, size_t length)
{
    size_t width = page->last + 1;
    if (length < width)
        return (FenyurkaPage){.refusal = 7};
    page->rows = rows;
    page->room = length / width;
    page->young_room = page->room / 16 < MOST_YOUNG ? page->room / 16 + 1 : MOST_YOUNG;
    walk_all(page);
    merge(page);
    fill_steps(page);
    return (FenyurkaPage){.more = page->more, .count = page->count};
}

static uint32_t list_refusal(FenyurkaList list)
{
    return list.degree - 2 > MOST - 2 ? 1 : list.top - 3 > MOST_DIMENSION - 3 ? 2 : list.floor > MOST_FLOOR ? 12 : 0;
}

static void begin_page(struct page *page, FenyurkaList list)
{
    page->m = list.degree;
    page->top = list.top;
    page->last = list.top + (list.gaps != 0);
    page->floor = list.floor;
    page->after = page->more = 0;
    page->count = page->young_count = 0;
}

FenyurkaPage fenyurka_first_page(FenyurkaList list, uint32_t *rows, size_t rows_length)
{
    struct page page;
    uint32_t refusal = list_refusal(list);
    if (refusal != 0)
        return (FenyurkaPage){.refusal = refusal};
    begin_page(&page, list);
    return fill(&page, rows, rows_length);
}

FenyurkaPage fenyurka_page_after(FenyurkaList list, uint32_t p, uint32_t q, uint32_t *rows, size_t rows_length)
{
    struct page page;
    struct residues r;
    struct search s;
    uint32_t refusal = list_refusal(list);
    if (refusal == 0)
        refusal = refusal_of(&r, list.degree, list.floor, p, q);
    if (refusal != 0)
        return (FenyurkaPage){.refusal = refusal, .quotient_degree = degree_told(refusal, p, q)};
    begin_page(&page, list);
    page.after = 1;
    page.position[0] = p;
    page.position[1] = q;
    begin_search(&s, list.degree, p, q, 0, 1);
    for (uint32_t i = 3; i <= page.top; i++)
        page.position[i] = next_t(&s);
    if (page.last > page.top)
        page.position[page.last] = sum_of_gaps(list.degree, p, q);
    return fill(&page, rows, rows_length);
}

/* ---- counting a list */

uint32_t count_pairs(uint32_t degree, uint32_t floor)
{
    struct page page;
    begin_page(&page, (FenyurkaList){.degree = degree, .top = 3, .floor = floor});
    page.rows = NULL;
    walk_all(&page);
    return (uint32_t)page.count;
}

/* ---- points */

/* The first 32 digits of a/p. */
static uint32_t word_of(uint32_t p, uint32_t a)
{
    uint32_t word = 0;
    for (int i = 0; i < 32; i++) {
        uint32_t down = 2 * a, less = down ^ p;
        word = 2 * word + (less < down);
        a = less < down ? less : down;
    }
    return word;
}

/* The first m digits of a word, as a number d, say the residue: d p / x^m without its fraction. For d = x^i it is that of x^(i-1) times x,
   and 1 more where p has the next term. The map takes d to the word of the residue times q. */
static void tabulate_words(uint32_t *table, uint32_t m, uint32_t p, uint32_t q)
{
    uint32_t images[MOST] = {0};
    uint64_t digits = 0, product;
    for (int i = 0; i < 64; i++) {
        uint32_t down = 2 * q, less = down ^ p;
        digits = 2 * digits + (less < down);
        q = less < down ? less : down;
    }
    product = digits;
    for (uint32_t i = 0; i < m; i++) {
        images[i] = (uint32_t)(product >> 32);
        product = 2 * product ^ (digits & -(uint64_t)(p >> (m - 1 - i) & 1));
    }
    tabulate(table, WIDE, images);
}

/* So few words are not worth a table. */
enum { FEW = 8 };

static void fill_words(uint32_t m, uint32_t p, uint32_t q, uint32_t x, uint32_t *words, size_t n)
{
    uint32_t table[WIDE_SIZE];
    tabulate_words(table, m, p, q);
    words[0] = word_of(p, x);
    for (size_t i = 1; i < n; i++)
        words[i] = image(table, WIDE, words[i - 1] >> (32 - m));
}

FenyurkaPoints fenyurka_points(uint32_t degree, uint32_t floor, uint32_t p, uint32_t q, uint32_t first, uint32_t *words,
                               size_t words_length)
{
    struct residues r;
    uint32_t products[NARROW_SIZE];
    if (degree - 2 > MOST - 2)
        return (FenyurkaPoints){.refusal = 1};
    if (floor > MOST_FLOOR)
        return (FenyurkaPoints){.refusal = 12};
    uint32_t refusal = refusal_of(&r, degree, floor, p, q), period = (1u << degree) - 1;
    if (refusal != 0)
        return (FenyurkaPoints){.refusal = refusal, .quotient_degree = degree_told(refusal, p, q)};
    if (first >= period)
        return (FenyurkaPoints){.refusal = 8};
    tabulate_products(products, NARROW, p, q);
    uint32_t x = first == 0 ? 1 : power(&r, products, q, first);
    size_t n = words_length < period - first ? words_length : period - first;
    if (n > FEW)
        fill_words(degree, p, q, x, words, n);
    else
        for (size_t i = 0; i < n; i++, x = image(products, NARROW, x))
            words[i] = word_of(p, x);
    return (FenyurkaPoints){.count = n};
}
