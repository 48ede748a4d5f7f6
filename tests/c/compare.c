/* Compares the library, through its header, with the reference: which pairs, floors, dimensions, pages of both kinds and points are
   compared. Prints what was compared and how often; exit status 1 on any difference. An argument is the seed of the random part. */
#include "calls.h"

#include <stdio.h>
#include <stdlib.h>

/* ---- all pairs of small degrees */

/* Pages of all lengths, from the start and after each pair that floor 0 accepts, and walks. */
static void small_pages(struct selection l)
{
    struct selection accepted = l;
    size_t all, pairs, width = row_width(l);
    accepted.floor = 0;
    const uint32_t *list = reference_list(accepted, &pairs);
    reference_list(l, &all);
    for (size_t length = 0; length <= (all + 2) * width; length++) {
        try_page(l, 0, 0, 0, length);
        for (size_t i = 0; i < pairs; i++)
            try_page(l, 1, list[i * width], list[i * width + 1], length);
    }
    for (uint32_t rows = 1; rows <= all + 1; rows++)
        try_walk(l, rows, rows);
    for (int i = 0; i < 20; i++)
        try_walk(l, 1, (uint32_t)all + 1);
}

/* All first indices and lengths, each at some floor that accepts the pair. */
static void small_points(uint32_t m, uint32_t p, uint32_t q)
{
    uint32_t step, period = ((uint32_t)1 << m) - 1;
    if (reference_judge(m, 0, p, q, &step) != 0)
        return;
    for (uint32_t first = 0; first <= period + 1; first++)
        for (size_t length = 0; length <= period + 2; length++)
            try_points(m, below((step < MOST_FLOOR ? step : MOST_FLOOR) + 1), p, q, first, length);
}

static void small_degree(uint32_t m)
{
    uint32_t size = (uint32_t)1 << m;
    for (uint32_t p = 0; p <= 2 * size + 2; p++)
        for (uint32_t q = 0; q <= size + 2; q++) {
            for (uint32_t floor = 0; floor <= MOST_FLOOR + 1; floor++) {
                try_judge(m, floor, p, q);
                try_points(m, floor, p, q, below(size + 1), below(size + 1));
                try_page((struct selection){m, LEAST_TOP + below(6), floor, draw_gaps()}, 1, p, q, below(40));
            }
            try_judge(m, draw(), p, q);
            try_quotients(m, p, q);
            try_gaps(m, p, q);
            small_points(m, p, q);
            for (uint32_t s = 0; s <= 9; s++)
                try_t_value(m, p, q, s);
        }
    for (uint32_t top = LEAST_TOP; top <= MOST_TOP; top++) {
        for (uint32_t floor = 0; floor <= MOST_FLOOR; floor++)
            for (uint32_t gaps = 0; gaps <= 1; gaps++)
                small_pages((struct selection){m, top, floor, gaps});
        for (uint32_t i = 0; i < 100; i++)
            try_page((struct selection){m, top, draw_floor(), draw_gaps()}, 0, 0, 0, below(40));
    }
}

/* ---- random pairs to degree 16 */

/* A pair down the tree: each quotient x or x + 1. */
static void draw_leaf(uint32_t m, uint32_t *p, uint32_t *q)
{
    *p = 1;
    *q = 0;
    for (uint32_t k = 0; k < m; k++) {
        uint32_t longer = 2 * *p ^ (below(2) ? *p : 0) ^ *q;
        *q = *p;
        *p = longer;
    }
}

/* An accepted pair of a step up to 33, or any where there is none. */
static const uint32_t *draw_short(const uint32_t *list, uint32_t all)
{
    uint32_t i = below(all), left = all;
    while (list[4 * i + 2] > MOST_FLOOR + 1 && --left > 0)
        i = (i + 1) % all;
    return list + 4 * i;
}

/* A pair of some kind: accepted, nearly so, down the tree and mostly with p primitive, well-formed, or of numbers as they come;
   accepted of a short step, or p of such a pair and a low power of x. */
static void draw_pair(uint32_t m, uint32_t *p, uint32_t *q)
{
    size_t all;
    uint32_t size = (uint32_t)1 << m, kind = below(10);
    const uint32_t *list = reference_list((struct selection){m, LEAST_TOP, 0, 0}, &all);
    *p = size + below(size);
    *q = 1 + below(size - 1);
    if (kind >= 8 && all > 0) {
        const uint32_t *row = draw_short(list, (uint32_t)all);
        *p = row[0];
        *q = kind == 8 ? row[1] : 2;
        for (uint32_t e = kind == 8 ? 0 : below(MOST_FLOOR + 1); e > 0; e--)
            *q = 2 * *q >> m & 1 ? 2 * *q ^ *p : 2 * *q;
    } else if (kind < 4 && all > 0) {
        const uint32_t *row = list + 4 * below((uint32_t)all);
        *p = row[0] ^ (kind == 2 ? (uint32_t)1 << below(m + 2) : 0);
        *q = row[1] ^ (kind == 3 ? (uint32_t)1 << below(m + 1) : 0);
    } else if (kind == 4) {
        uint32_t step;
        for (int i = 0; i == 0 || (i < 40 && reference_judge(m, 0, *p, *q, &step) == 4); i++)
            draw_leaf(m, p, q);
    } else if (kind == 5 && all > 0)
        *p = list[4 * below((uint32_t)all)];
    else if (kind == 6 && below(2))
        *(below(2) ? p : q) = draw();
}

static void random_pairs(unsigned rounds)
{
    uint32_t p, q;
    for (unsigned i = 0; i < rounds; i++) {
        uint32_t m = LEAST_DEGREE + below(15);
        draw_pair(m, &p, &q);
        try_judge(near(m), floor_for(m, p, q), p, q);
        try_judge(m, below(MOST_FLOOR + 1), p, q);
        try_quotients(near(m), p, q);
        draw_pair(m, &p, &q);
        try_quotients(near(m), p, q);
        try_gaps(near(m), p, q);
        try_t_value(near(m), p, q, below(20) == 0 ? extremes[below(EXTREMES)] : 1 + below(8));
    }
}

static void random_points(unsigned rounds)
{
    uint32_t p, q;
    for (unsigned i = 0; i < rounds; i++) {
        uint32_t m = LEAST_DEGREE + below(15), period = ((uint32_t)1 << m) - 1, kind = below(8);
        uint32_t first = kind == 0 ? 0 : kind == 1 ? period - 1 - below(3) : kind == 2 ? period + below(3) : below(period);
        size_t length = below(3) == 0 ? below(4) : below(300);
        if (kind == 3)
            first = extremes[below(EXTREMES)];
        if (kind == 4)
            length = (size_t)period - first + below(50);
        draw_pair(m, &p, &q);
        try_points(near(m), floor_for(m, p, q), p, q, first, length);
    }
}

/* Pages after each row of a step below 32 and from the row before it, at the last floor that the step reaches and at the next. */
static void pages_about_short_steps(struct selection l)
{
    size_t all, width = row_width(l);
    const uint32_t *list = reference_list(l, &all);
    for (size_t i = 0; i < all; i++) {
        const uint32_t *row = list + i * width, *before = i > 0 ? row - width : row, step = row[2];
        for (l.floor = step; step < MOST_FLOOR && l.floor <= step + 1; l.floor++) {
            try_page(l, i > 0, before[0], before[1], 3 * width);
            try_page(l, 1, row[0], row[1], 3 * width);
        }
    }
}

/* A page of some rows from the start or after some pair of the list. */
static void random_page(uint32_t m)
{
    size_t all;
    struct selection l = {m, LEAST_TOP + below(6), 0, draw_gaps()};
    uint32_t width = row_width(l);
    const uint32_t *row = reference_list(l, &all) + below((uint32_t)all) * width;
    size_t rows = below(3) ? below(60) : below((uint32_t)all + 2);
    l.floor = below(4) ? below(MOST_FLOOR + 1) : floor_for(m, row[0], row[1]);
    try_page(l, below(4) != 0, row[0], row[1], rows * width + below(width));
}

/* Walks at some floors, of both kinds below degree 12 and of one kind at each floor above. */
static void some_walks(uint32_t m, uint32_t top)
{
    const uint32_t floors[] = {0, MOST_FLOOR, below(MOST_FLOOR), 1 + below(MOST_FLOOR)};
    for (uint32_t k = 0; k < (m < 12 ? 8 : 2); k++) {
        struct selection l = {m, top, floors[k % 4], m < 12 ? k / 4 : (k + top) % 2};
        size_t all;
        reference_list(l, &all);
        uint32_t third = (uint32_t)all / 3 + 1;
        try_walk(l, third, third);
        if (m < 12)
            try_walk(l, 1 + (uint32_t)all / 20, 1 + (uint32_t)all / 4);
    }
}

/* Page calls that search, and walks: fewer the higher the degree. */
static void random_pages(void)
{
    static const unsigned rounds[MOST_DEGREE + 1] = {[7] = 400, 300, 300, 200, 100, 50, 24, 16, 10, 8};
    for (uint32_t m = 7; m <= MOST_DEGREE; m++) {
        for (unsigned i = 0; i < rounds[m]; i++)
            random_page(m);
        for (uint32_t top = LEAST_TOP; top <= MOST_TOP; top += m < 12 ? 1 : 5) {
            pages_about_short_steps((struct selection){m, top, 0, draw_gaps()});
            some_walks(m, top);
        }
        for (unsigned i = 0; i < 200; i++) {
            uint32_t p, q, step;
            draw_pair(m, &p, &q);
            uint32_t floor = floor_for(m, p, q);
            if (reference_judge(m, floor, p, q, &step) != 0)
                try_page((struct selection){near(m), below(12), floor, draw_gaps()}, 1, p, q, below(40));
        }
    }
}

/* ---- t-values by counting */

/* All pairs of degrees 2 to 5 in all dimensions, and numbers beside these; samples of degrees 6 to 8, with the pair of degree 8 that
   takes longest; degrees that are not counted. */
static void counts(void)
{
    static const unsigned samples[MOST_COUNTED + 1] = {[6] = 200, 80, 30};
    uint32_t p, q;
    for (uint32_t m = LEAST_DEGREE; m <= 5; m++)
        for (p = 0; p <= (uint32_t)2 << m; p++)
            for (q = 0; q <= (uint32_t)1 << m; q++)
                for (uint32_t s = 0; s <= MOST_DIMENSION + 1; s++)
                    try_count(m, p, q, s);
    for (uint32_t m = 6; m <= MOST_COUNTED; m++)
        for (unsigned i = 0; i < samples[m]; i++) {
            draw_pair(m, &p, &q);
            for (uint32_t s = 1; s <= MOST_DIMENSION; s++)
                try_count(m, p, q, s);
        }
    try_count(8, 440, 53, 8);
    for (unsigned i = 0; i < 2000; i++) {
        uint32_t m = LEAST_DEGREE + below(15);
        draw_pair(m, &p, &q);
        try_count(m < 6 ? near(m) : m + 3, p, q, below(10));
    }
}

/* ---- sums of gaps by counting */

/* All pairs of degrees 2 to 5, samples above; by both ways of the reference. */
static void cubes(void)
{
    static const unsigned samples[MOST_DEGREE + 1] = {[6] = 300, 200, 100, 60, 20, 10, 6, 4, 3, 2, 2};
    uint32_t p, q, sum;
    for (uint32_t m = LEAST_DEGREE; m <= 5; m++)
        for (p = (uint32_t)1 << m; p < (uint32_t)2 << m; p++)
            for (q = 1; q < (uint32_t)1 << m; q++)
                try_cubes(m, p, q);
    for (uint32_t m = 6; m <= MOST_DEGREE; m++)
        for (unsigned i = 0; i < samples[m]; i++) {
            do
                draw_pair(m, &p, &q);
            while (reference_gaps(m, p, q, &sum) != 0);
            try_cubes(m, p, q);
        }
}

/* ---- extreme numbers in every place */

static void extreme_pages(uint32_t m, uint32_t top)
{
    static const size_t lengths[] = {0, 1, 3, 4, 5, 8, 9, 10, 100};
    for (size_t k = 0; k < sizeof lengths / sizeof lengths[0]; k++)
        for (int i = 0; i < 3; i++) {
            struct selection l = {m, top, i == 0 ? 0 : i == 1 ? extremes[below(EXTREMES)] : draw_floor(), draw_gaps()};
            if (m <= 10 || m > MOST_DEGREE || !lawful_top(top) || lengths[k] < row_width(l))
                try_page(l, 0, 0, 0, lengths[k]);
            try_page(l, 1, extremes[below(EXTREMES)], extremes[below(EXTREMES)], lengths[k]);
        }
}

static void extreme_numbers(void)
{
    for (int a = 0; a < EXTREMES; a++)
        for (int b = 0; b < EXTREMES; b++) {
            extreme_pages(extremes[a], extremes[b]);
            for (int c = 0; c < EXTREMES; c++) {
                try_quotients(extremes[a], extremes[b], extremes[c]);
                try_gaps(extremes[a], extremes[b], extremes[c]);
                for (int d = 0; d < EXTREMES; d += 1 + (int)below(3)) {
                    try_judge(extremes[a], extremes[d], extremes[b], extremes[c]);
                    try_t_value(extremes[a], extremes[b], extremes[c], extremes[d]);
                    try_count(extremes[a], extremes[b], extremes[c], extremes[d]);
                    try_points(extremes[a], draw_floor(), extremes[b], extremes[c], extremes[d], below(3));
                }
            }
        }
}

/* ---- all of it */

static void part(const char *what)
{
    printf("%s\n", what);
    fflush(stdout);
}

int main(int argc, char **argv)
{
    chance = (argc > 1 ? strtoull(argv[1], NULL, 10) : 1) * 0x2545F4914F6CDD1Du | 1;
    part("all pairs of degrees 2 to 6");
    for (uint32_t m = LEAST_DEGREE; m <= 6; m++)
        small_degree(m);
    part("t-values counted, of all pairs of degrees 2 to 5 and samples of 6 to 8");
    counts();
    part("sums of gaps counted, of all pairs of degrees 2 to 5 and samples to degree 16");
    cubes();
    part("extreme numbers in every place");
    extreme_numbers();
    part("catalogues, whole and damaged");
    catalogues(400);
    readers(20000);
    part("files written, of lawful and of faulty requests");
    writers(3000);
    part("random pairs, first indices and buffers to degree 16");
    random_pairs(8000);
    random_points(3000);
    part("random positions and walks to degree 16");
    random_pages();
    return report();
}
