/* Compares the reference with figures printed elsewhere: the examples of document 01 and what a floor leaves of them, K of (11, 2) and
   the orders of refusals in document 02, the t-value that it prints, and Tables 1 and 2 of document 001 with the sums of resolution gaps
   for m = 10 to 16, typed from their pages; small sums of gaps counted by hand. Prints each comparison; exit status 1 where one fails that
   is not noted. */
#include "reference.h"

#include <inttypes.h>
#include <stdio.h>
#include <string.h>

static unsigned long held, failed;

static void hold(const char *what, uint32_t got, uint32_t expected)
{
    held++;
    if (got != expected) {
        failed++;
        printf("%s: %" PRIu32 ", expected %" PRIu32 "\n", what, got, expected);
    }
}

static void judging(void)
{
    static const uint32_t cases[][5] = {
        /* degree, p, q, refusal, step */
        {2, 7, 2, 0, 1},   {2, 7, 3, 0, 2},   {3, 11, 7, 0, 5}, {3, 13, 5, 0, 3},  {3, 11, 2, 5, 0},
        {4, 31, 12, 4, 0}, {4, 31, 1, 4, 0},  {4, 19, 12, 6, 0}, {3, 16, 1, 3, 0},
    };
    for (size_t i = 0; i < sizeof cases / sizeof cases[0]; i++) {
        const uint32_t *c = cases[i];
        uint32_t step = 0;
        hold("judging", reference_judge(c[0], 0, c[1], c[2], &step), c[3]);
        hold("step", step, c[4]);
    }
}

/* Document 02: 12 directly after 1, 11 directly after 6. The step of (11, 2) is 1, that of (19, 12) 6. */
static void judging_at_floors(void)
{
    static const uint32_t cases[][6] = {
        /* degree, floor, p, q, refusal, step */
        {2, 1, 7, 2, 0, 1},     {2, 2, 7, 2, 11, 0},    {2, 2, 7, 3, 0, 2},     {2, 3, 7, 3, 11, 0},           {3, 5, 11, 7, 0, 5},
        {3, 6, 11, 7, 11, 0},   {3, 3, 13, 5, 0, 3},    {3, 4, 13, 5, 11, 0},   {3, 32, 11, 7, 11, 0},         {3, 33, 11, 7, 12, 0},
        {1, 33, 2, 1, 1, 0},    {17, 33, 16, 1, 1, 0},  {3, 33, 16, 1, 12, 0},  {3, 0xFFFFFFFF, 11, 7, 12, 0}, {4, 33, 31, 12, 12, 0},
        {3, 33, 11, 2, 12, 0},  {4, 33, 19, 12, 12, 0}, {3, 32, 16, 1, 3, 0},   {4, 32, 31, 12, 4, 0},         {3, 1, 11, 2, 5, 0},
        {3, 2, 11, 2, 5, 0},    {4, 6, 19, 12, 6, 0},   {4, 7, 19, 12, 6, 0},
    };
    for (size_t i = 0; i < sizeof cases / sizeof cases[0]; i++) {
        const uint32_t *c = cases[i];
        uint32_t step = 0;
        hold("judging at a floor", reference_judge(c[0], c[1], c[2], c[3], &step), c[4]);
        hold("step at a floor", step, c[5]);
    }
}

static void quotients(void)
{
    static const uint32_t cases[][5] = {
        /* degree, p, q, K, the common factor's degree; but for the first from Euclid's algorithm by hand */
        {3, 11, 2, 2, 0}, {3, 8, 4, 1, 2}, {4, 31, 1, 4, 0}, {4, 31, 12, 1, 0}, {4, 19, 12, 1, 0},
    };
    for (size_t i = 0; i < sizeof cases / sizeof cases[0]; i++) {
        const uint32_t *c = cases[i];
        uint32_t largest = 99, common = 99;
        hold("quotients", reference_quotients(c[0], c[1], c[2], &largest, &common), 0);
        hold("K", largest, c[3]);
        hold("common factor", common, c[4]);
    }
}

static void t_values(void)
{
    static const uint32_t cases[][5] = {
        /* degree, p, q, dimension, t */
        {2, 7, 2, 1, 0},  {2, 7, 2, 2, 0},  {2, 7, 2, 3, 0},  {2, 7, 2, 4, 1},  {3, 11, 4, 1, 0}, {3, 11, 4, 2, 0},
        {3, 11, 4, 3, 1}, {3, 11, 4, 4, 1}, {3, 11, 2, 2, 1}, {3, 11, 1, 2, 2}, {3, 8, 4, 2, 2},
    };
    for (size_t i = 0; i < sizeof cases / sizeof cases[0]; i++) {
        const uint32_t *c = cases[i];
        uint32_t t = 99;
        hold("t-value", reference_t_value(c[0], c[1], c[2], c[3], &t), 0);
        hold("t", t, c[4]);
        hold("t by rank", reference_t_by_rank(c[0], c[1], c[2], c[3]), c[4]);
    }
}

/* Document 02: 1 for degrees outside 2 to 8, else the refusals of a single t-value; (11, 2) in dimension 2 is its example. */
static void counts(void)
{
    static const uint32_t cases[][6] = {
        /* degree, p, q, dimension, refusal, t */
        {3, 11, 2, 2, 0, 1},   {1, 2, 1, 2, 1, 0},    {9, 529, 100, 3, 1, 0}, {16, 65579, 2, 8, 1, 0}, {17, 11, 2, 2, 1, 0},
        {9, 529, 100, 9, 1, 0}, {9, 16, 1, 9, 1, 0},  {3, 11, 2, 0, 2, 0},    {3, 11, 2, 9, 2, 0},     {3, 16, 1, 9, 2, 0},
        {3, 16, 1, 2, 3, 0},   {8, 256, 256, 1, 3, 0}, {8, 512, 1, 8, 3, 0},  {2, 7, 0, 1, 3, 0},
    };
    for (size_t i = 0; i < sizeof cases / sizeof cases[0]; i++) {
        const uint32_t *c = cases[i];
        uint32_t t = 0;
        hold("counting", reference_count(c[0], c[1], c[2], c[3], &t), c[4]);
        hold("t counted", t, c[5]);
    }
}

/* Document 02: the refusals of the sum of gaps are 1, then 3; sums of degrees 2 to 5 counted by hand. With q = 1 all coordinates are the
   same, so l_s = 0 from s = 2 on. With p = x^m and q = x^(m-1) coordinate 1 has one digit that varies and every later one none. */
static void gaps(void)
{
    static const uint32_t cases[][5] = {
        /* degree, p, q, refusal, sum */
        {2, 7, 2, 0, 0},  {2, 7, 1, 0, 1},   {3, 11, 1, 0, 2},    {3, 11, 2, 0, 0}, {3, 11, 4, 0, 0},  {3, 8, 4, 0, 1},
        {4, 19, 1, 0, 4}, {4, 16, 8, 0, 3},  {5, 32, 16, 0, 4},   {5, 37, 1, 0, 5}, {1, 2, 1, 1, 0},   {17, 16, 1, 1, 0},
        {3, 16, 1, 3, 0}, {3, 11, 0, 3, 0},  {3, 11, 8, 3, 0},    {3, 7, 4, 3, 0},  {0, 11, 4, 1, 0},  {0xFFFFFFFF, 11, 4, 1, 0},
    };
    for (size_t i = 0; i < sizeof cases / sizeof cases[0]; i++) {
        const uint32_t *c = cases[i];
        uint32_t sum = 0;
        hold("sum of gaps", reference_gaps(c[0], c[1], c[2], &sum), c[3]);
        hold("its number", sum, c[4]);
        if (c[3] == 0)
            hold("the same by rank", reference_gaps_by_rank(c[0], c[1], c[2]), c[4]);
    }
}

/* Document 01's list of degree 3 and T = 4, and the same with the sum of gaps, which is 0 in each row: 1, q and q^2 are independent. */
static const uint32_t four_rows[2][4][6] = {
    {{11, 4, 2, 1, 1}, {11, 7, 5, 1, 1}, {13, 5, 3, 1, 1}, {13, 7, 4, 1, 1}},
    {{11, 4, 2, 1, 1, 0}, {11, 7, 5, 1, 1, 0}, {13, 5, 3, 1, 1, 0}, {13, 7, 4, 1, 1, 0}},
};

static void pages(uint32_t gaps)
{
    const struct selection none = {4, 3, 0, gaps}, four = {3, 4, 0, gaps};
    const uint32_t *rows, width = row_width(four);
    size_t count = 9;
    uint32_t more = 9;
    hold("page 4 3", reference_page(none, 0, 0, 0, row_width(none), &rows, &count, &more), 0);
    hold("rows", (uint32_t)count, 0);
    hold("more", more, 0);
    hold("page 3 4", reference_page(four, 0, 0, 0, 4 * width, &rows, &count, &more), 0);
    hold("rows", (uint32_t)count, 4);
    hold("more", more, 0);
    for (uint32_t k = 0; k < 4; k++)
        hold("page 3 4, numbers", memcmp(rows + k * width, four_rows[gaps != 0][k], width * sizeof rows[0]) != 0, 0);
    hold("page 3 4, short slice", reference_page(four, 0, 0, 0, width - 1, &rows, &count, &more), 7);
}

/* Of document 01's four rows of degree 3, whose steps are 2, 5, 3 and 4, those that a floor leaves: row k where bit k is set. */
static void pages_at_floors(void)
{
    static const uint32_t left[] = {15, 15, 15, 14, 10, 2, 0};
    for (uint32_t i = 0; i <= 2 * 32 + 1; i++) {
        const struct selection l = {3, 4, i / 2, i % 2};
        const uint32_t *rows, width = row_width(l);
        size_t count, n = 0;
        uint32_t more;
        hold("page at a floor", reference_page(l, 0, 0, 0, 4 * width, &rows, &count, &more), 0);
        for (uint32_t k = 0; k < 4; k++) {
            if (!(left[l.floor < 6 ? l.floor : 6] >> k & 1))
                continue;
            hold("its row", n >= count || memcmp(rows + n * width, four_rows[l.gaps][k], width * sizeof rows[0]) != 0, 0);
            n++;
        }
        hold("its rows", (uint32_t)count, (uint32_t)n);
        hold("its more", more, 0);
    }
}

/* Document 02: a page gives 1, 2, 12, then for a position after a pair 3 to 6 and 11, then 7, which goes by the row's length. T + 16 is a
   wrong T here. */
static void orders_of_pages(void)
{
    static const struct {
        struct selection l;
        uint32_t after, p, q, slice, refusal, rows;
    } cases[] = {
        /* degree, T, floor, gaps; after a pair, p, q, slice, refusal, rows */
        {{17, 9, 33, 0}, 1, 16, 1, 0, 1, 0}, {{3, 9, 33, 0}, 1, 16, 1, 0, 2, 0},  {{3, 4, 33, 0}, 1, 16, 1, 0, 12, 0},
        {{3, 4, 33, 0}, 1, 11, 7, 5, 12, 0}, {{3, 4, 32, 0}, 1, 16, 1, 0, 3, 0},  {{4, 4, 32, 0}, 1, 31, 12, 0, 4, 0},
        {{3, 4, 32, 0}, 1, 11, 2, 0, 5, 0},  {{4, 4, 32, 0}, 1, 19, 12, 0, 6, 0}, {{3, 4, 6, 0}, 1, 11, 7, 0, 11, 0},
        {{3, 4, 6, 0}, 1, 11, 7, 20, 11, 0}, {{3, 4, 5, 0}, 1, 11, 7, 4, 7, 0},   {{3, 4, 5, 0}, 1, 11, 7, 5, 0, 0},
        {{3, 4, 3, 0}, 1, 13, 5, 20, 0, 1},  {{3, 4, 3, 0}, 1, 11, 7, 20, 0, 2},  {{3, 4, 4, 0}, 1, 11, 7, 20, 0, 1},
        {{3, 4, 4, 0}, 1, 13, 5, 20, 11, 0}, {{17, 9, 33, 0}, 0, 0, 0, 0, 1, 0},  {{3, 9, 33, 0}, 0, 0, 0, 0, 2, 0},
        {{3, 4, 33, 0}, 0, 0, 0, 0, 12, 0},  {{3, 4, 33, 0}, 0, 0, 0, 20, 12, 0}, {{3, 4, 32, 0}, 0, 0, 0, 4, 7, 0},
        {{3, 4, 32, 0}, 0, 0, 0, 5, 0, 0},   {{3, 4, 3, 0}, 0, 0, 0, 12, 0, 2},   {{3, 4, 5, 0}, 0, 0, 0, 20, 0, 1},
        {{17, 9, 33, 1}, 1, 16, 1, 0, 1, 0}, {{3, 9, 33, 1}, 1, 16, 1, 0, 2, 0},  {{3, 4, 33, 1}, 1, 16, 1, 0, 12, 0},
        {{3, 4, 32, 1}, 1, 11, 2, 0, 5, 0},  {{3, 4, 6, 1}, 1, 11, 7, 0, 11, 0},  {{3, 4, 5, 1}, 1, 11, 7, 5, 7, 0},
        {{3, 4, 5, 1}, 1, 11, 7, 6, 0, 0},   {{3, 4, 0, 1}, 0, 0, 0, 5, 7, 0},    {{3, 4, 0, 1}, 0, 0, 0, 6, 0, 1},
        {{3, 4, 0, 7}, 0, 0, 0, 5, 7, 0},    {{3, 4, 0, 7}, 0, 0, 0, 23, 0, 3},   {{3, 4, 3, 1}, 1, 11, 7, 12, 0, 2},
        {{3, 19, 0, 0}, 0, 0, 0, 60, 2, 0},  {{3, 20, 0, 0}, 0, 0, 0, 60, 2, 0},  {{3, 20, 0, 1}, 0, 0, 0, 60, 2, 0},
    };
    for (size_t i = 0; i < sizeof cases / sizeof cases[0]; i++) {
        const uint32_t *rows;
        size_t count = 0;
        uint32_t more, p = cases[i].p, q = cases[i].q;
        uint32_t refusal = reference_page(cases[i].l, (int)cases[i].after, p, q, cases[i].slice, &rows, &count, &more);
        hold("order of a page", refusal, cases[i].refusal);
        hold("rows of a page", (uint32_t)count, cases[i].rows);
    }
}

static void words(void)
{
    static const uint32_t seven[7] = {0x2E5CB972, 0xB972E5CB, 0xE5CB972E, 0x972E5CB9, 0x5CB972E5, 0x72E5CB97, 0xCB972E5C};
    uint32_t out[8];
    size_t count = 9;
    hold("points", reference_points(3, 0, 11, 4, 0, out, 8, &count), 0);
    hold("words", (uint32_t)count, 7);
    hold("words' digits", memcmp(out, seven, sizeof seven) != 0, 0);
    memset(out, 0, sizeof out);
    hold("points at floor 2", reference_points(3, 2, 11, 4, 0, out, 8, &count), 0);
    hold("their digits", memcmp(out, seven, sizeof seven) != 0, 0);
}

/* Document 02: points give 1, 12, 3 to 6, 11, 8. */
static void orders_of_points(void)
{
    static const uint32_t cases[][6] = {
        /* degree, floor, p, q, first index, refusal */
        {17, 33, 16, 1, 7, 1},  {3, 33, 16, 1, 7, 12}, {3, 32, 16, 1, 7, 3},  {4, 32, 31, 12, 15, 4}, {3, 32, 11, 2, 7, 5},
        {4, 32, 19, 12, 15, 6}, {3, 3, 11, 4, 7, 11},  {3, 3, 11, 4, 0, 11},  {3, 2, 11, 4, 7, 8},    {3, 2, 11, 4, 6, 0},
    };
    for (size_t i = 0; i < sizeof cases / sizeof cases[0]; i++) {
        const uint32_t *c = cases[i];
        uint32_t out[1];
        size_t count;
        hold("order of points", reference_points(c[0], c[1], c[2], c[3], c[4], out, 1, &count), c[5]);
    }
}

/* The file that a request for degree 3 alone asks for, at a floor: these bytes, of which one less is not enough room. */
static void written_as(uint32_t floor, uint32_t number, const uint8_t *file, size_t size)
{
    const uint32_t numbers[2] = {3, number};
    const uint8_t *written;
    size_t length = 0;
    hold("write", reference_write(floor, numbers, 2, size, &written, &length), 0);
    hold("its bytes", length != size || memcmp(written, file, size) != 0, 0);
    hold("write into one byte less", reference_write(floor, numbers, 2, size - 1, &written, &length), 14);
}

/* A file whose one body is of degree 3 and T = 4, with all four rows. */
static void read_as(uint32_t gaps, const uint8_t *file, size_t size)
{
    const struct selection l = {3, 4, 0, gaps};
    uint32_t entries = 99, row[LONGEST_ROW];
    struct reference_body body = {0};
    size_t place = 0;
    hold("open", reference_open(file, size, &entries), 0);
    hold("entries", entries, 1);
    hold("lookup", reference_lookup(file, size, 3, &body), 0);
    hold("top", body.top, 4);
    hold("gaps", body.gaps, gaps);
    hold("rows", body.rows, 4);
    hold("row size", (uint32_t)body.row_size, 8 + gaps);
    hold("offset", (uint32_t)body.offset, 9);
    hold("length", (uint32_t)body.length, 32 + 4 * gaps);
    for (uint32_t k = 0; k < 4; k++) {
        hold("row", (uint32_t)reference_row(file + body.offset, body.length, l, place, row, &place), 1);
        hold("row's numbers", memcmp(row, four_rows[gaps][k], row_width(l) * sizeof row[0]) != 0, 0);
    }
    hold("end", (uint32_t)reference_row(file + body.offset, body.length, l, place, row, &place), 0);
}

/* Document 01's file, and the same with the sum of gaps: the entry has T + 16, and each row one byte more. */
static void catalogue(void)
{
    static const uint8_t file[41] = {
        0x01, 0x03, 0x04, 0x00, 0x04, 0x00, 0x00, 0x00, 0x09, 0, 3, 0, 4, 0, 2, 1, 1, 0, 3, 0, 7, 0, 5, 1, 1,
        0,    5,    0,    5,    0,    3,    1,    1,    0,    5, 0, 7, 0, 4, 1, 1,
    };
    static const uint8_t with_gaps[45] = {
        0x01, 0x03, 0x14, 0x00, 0x04, 0x00, 0x00, 0x00, 0x09, 0, 3, 0, 4, 0, 2, 1, 1, 0, 0, 3, 0, 7, 0, 5, 1, 1, 0,
        0,    5,    0,    5,    0,    3,    1,    1,    0,    0, 5, 0, 7, 0, 4, 1, 1, 0,
    };
    /* Floor 5 leaves the row of step 5, floor 6 none. */
    static const uint8_t one_row[17] = {1, 3, 4, 0, 1, 0, 0, 0, 9, 0, 3, 0, 7, 0, 5, 1, 1}, no_row[9] = {1, 3, 4, 0, 0, 0, 0, 0, 9};
    static const uint8_t its_gaps[18] = {1, 3, 20, 0, 1, 0, 0, 0, 9, 0, 3, 0, 7, 0, 5, 1, 1, 0}, no_gaps[9] = {1, 3, 20, 0, 0, 0, 0, 0, 9};
    const uint8_t *written;
    uint8_t other[45];
    uint32_t entries;
    size_t length = 0;
    read_as(0, file, sizeof file);
    read_as(1, with_gaps, sizeof with_gaps);
    written_as(0, 4, file, sizeof file);
    written_as(0, 20, with_gaps, sizeof with_gaps);
    written_as(5, 4, one_row, sizeof one_row);
    written_as(5, 20, its_gaps, sizeof its_gaps);
    written_as(6, 4, no_row, sizeof no_row);
    written_as(6, 20, no_gaps, sizeof no_gaps);
    hold("write nothing", reference_write(0, NULL, 0, 1, &written, &length), 0);
    hold("its byte", length != 1 || written[0] != 0, 0);
    hold("write nothing into nothing", reference_write(0, NULL, 0, 0, &written, &length), 14);
    /* Rows of T = 5 have as many bytes as those of T = 4 with the sum of gaps, which may be any byte. */
    for (uint32_t number = 0; number < 256; number++) {
        memcpy(other, with_gaps, sizeof other);
        other[2] = (uint8_t)number;
        hold("open as another kind", reference_open(other, sizeof other, &entries), number == 5 || number == 20 ? 0 : 9);
        other[2] = with_gaps[2];
        other[sizeof other - 1] = (uint8_t)number;
        hold("open any sum", reference_open(other, sizeof other, &entries), 0);
    }
}

/* Document 02: 1 if any entry has a wrong degree, then 2 if any has a wrong or missing T, then 12, then 13, then 14. */
static void writing(void)
{
    static const struct {
        uint32_t refusal, floor;
        size_t count;
        uint32_t numbers[6];
    } cases[] = {
        {1, 0, 6, {3, 9, 3, 3, 17, 3}}, {1, 0, 5, {3, 9, 3, 3, 1}}, {2, 0, 6, {5, 3, 3, 3, 6, 9}},   {2, 0, 5, {5, 3, 3, 3, 6}},
        {2, 0, 1, {3}},                 {13, 0, 4, {5, 3, 3, 3}},   {13, 0, 4, {3, 3, 3, 4}},        {13, 0, 6, {3, 3, 6, 4, 5, 3}},
        {14, 0, 4, {3, 3, 5, 3}},       {1, 0, 1, {0}},             {1, 33, 6, {3, 9, 3, 3, 17, 3}}, {2, 33, 6, {5, 3, 3, 3, 6, 9}},
        {2, 33, 1, {3}},                {12, 33, 4, {5, 3, 3, 3}},  {12, 33, 2, {3, 3}},             {12, 33, 0, {0}},
        {13, 32, 4, {5, 3, 3, 3}},      {14, 32, 4, {3, 3, 5, 3}},  {14, 32, 0, {0}},                {14, 0, 4, {3, 19, 5, 3}},
        {14, 0, 2, {3, 24}},            {2, 0, 2, {3, 16}},         {2, 0, 2, {3, 17}},              {2, 0, 2, {3, 18}},
        {2, 0, 2, {3, 25}},             {2, 0, 2, {3, 0xFFFFFFFF}}, {2, 0, 4, {3, 19, 5, 18}},       {2, 33, 4, {5, 25, 3, 19}},
        {12, 33, 4, {5, 24, 3, 19}},    {13, 0, 4, {5, 19, 3, 19}}, {13, 0, 4, {3, 3, 3, 19}},       {1, 0, 2, {17, 16}},
    };
    for (size_t i = 0; i < sizeof cases / sizeof cases[0]; i++) {
        const uint8_t *written;
        size_t length;
        hold("writing", reference_write(cases[i].floor, cases[i].numbers, cases[i].count, 0, &written, &length), cases[i].refusal);
    }
}

/* A line of Table 1: m, its coefficients lowest first, the step; and of Table 2: t(2) .. t(8) and the sum of gaps. */
struct line {
    uint32_t m;
    const char *coefficients;
    uint32_t step;
    uint32_t t[7], gaps;
    int agrees;
};

static const struct line lines[] = {
    {10, "1 0 0 0 0 0 1 1 0 1 1 0 1 0 1 1 1 0 1 0 1", 70, {0, 3, 3, 4, 5, 5, 6}, 2, 1},
    {11, "1 1 0 0 1 0 0 1 1 0 1 1 0 1 0 0 0 0 1 1 1 0 1", 179, {0, 3, 3, 5, 6, 6, 6}, 1, 1},
    {12, "1 1 1 1 1 0 0 1 0 0 1 1 1 0 0 1 0 0 1 1 1 1 0 1 1", 146, {0, 3, 4, 5, 6, 6, 6}, 2, 1},
    {13, "1 1 1 0 1 0 0 0 1 0 1 1 1 1 1 0 1 0 1 1 1 1 1 0 0 1 1", 139, {0, 2, 3, 5, 6, 6, 7}, 0, 1},
    {14, "1 0 1 0 1 1 0 1 1 1 1 0 1 1 1 1 0 1 1 1 1 0 1 0 0 1 0 1 1", 5192, {0, 3, 4, 5, 7, 7, 7}, 1, 1},
    /* Our copy prints one coefficient too many here. */
    {15, "1 1 0 1 1 0 0 1 1 1 0 1 0 1 1 1 0 0 1 1 0 1 1 1 1 0 0 0 0 0 1 1", 1028, {0, 3, 4, 6, 7, 8, 8}, 1, 0},
    /* The same without one of its four ones in a row: of all lines with one coefficient less the only one that is accepted. */
    {15, "1 1 0 1 1 0 0 1 1 1 0 1 0 1 1 1 0 0 1 1 0 1 1 1 0 0 0 0 0 1 1", 1028, {0, 3, 4, 6, 7, 8, 8}, 1, 1},
    {16, "1 1 0 1 0 1 1 1 1 1 0 0 1 0 0 1 1 1 0 0 1 1 1 0 1 0 0 1 1 0 1 1 1", 12749, {0, 3, 4, 7, 7, 8, 10}, 1, 1},
};

static void tables(void)
{
    for (size_t i = 0; i < sizeof lines / sizeof lines[0]; i++) {
        const struct line *l = &lines[i];
        uint32_t p = 0, q = 0, step = 0, k = 0;
        int wrong;
        for (const char *c = l->coefficients; *c != 0; c++) {
            if (*c == ' ')
                continue;
            if (k <= l->m)
                p |= (uint32_t)(*c - '0') << k;
            else if (k <= 2 * l->m)
                q |= (uint32_t)(*c - '0') << (k - l->m - 1);
            k++;
        }
        /* At floor 32, as document 001 requires a step of at least the digits of a word. */
        uint32_t refusal = reference_judge(l->m, 32, p, q, &step);
        wrong = k != 2 * l->m + 1 || refusal != 0 || step != l->step;
        printf("m %" PRIu32 " coefficients %" PRIu32 " pair %" PRIu32 " %" PRIu32 " printed step %" PRIu32 " refusal %" PRIu32
               " step %" PRIu32 " t(2) .. t(8)", l->m, k, p, q, l->step, refusal, step);
        for (uint32_t s = 2; s <= 8; s++) {
            uint32_t t = reference_t_by_rank(l->m, p, q, s);
            printf(" %" PRIu32, t);
            wrong |= t != l->t[s - 2];
        }
        uint32_t gaps = reference_gaps_by_counting(l->m, p, q);
        printf(" gaps %" PRIu32, gaps);
        wrong |= gaps != l->gaps || gaps != reference_gaps_by_rank(l->m, p, q);
        printf(wrong ? ": differs%s\n" : ": agrees%s\n", l->agrees ? "" : ", as noted");
        held++;
        failed += wrong == l->agrees;
    }
}

int main(void)
{
    judging();
    judging_at_floors();
    quotients();
    t_values();
    counts();
    gaps();
    pages(0);
    pages(1);
    pages_at_floors();
    orders_of_pages();
    words();
    orders_of_points();
    catalogue();
    writing();
    tables();
    printf("figures: %lu held, %lu failed\n", held, failed);
    return failed != 0;
}
