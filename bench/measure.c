/* What is measured: each call of the header between two marks that the counter sees, for degrees 8, 10 .. 16, at floor 0 where no
   other is named, and without the sum of gaps where 'gaps' is not. Prints a line for each count: degree, how many units of work the count
   is to be divided by, what was measured. */
#include "fenyurka.h"

/* Moves all code by so many bytes; see bench/run. */
#define BYTES(n) #n
#define MOVED_BY(n) __asm__(".text\n.fill " BYTES(n) ", 1, 0x90\n")
MOVED_BY(PLACE);

#include <stdio.h>
#include <stdlib.h>
#include <unistd.h>

enum { TOP = 8, WIDTH = TOP + 1, STEP = 2, FLOOR = 32, MARK = 16, MOST_ROWS = 3000, SAMPLE = 100, PERIOD = 65535 };

static uint32_t degree, list[MOST_ROWS * WIDTH], gap_list[MOST_ROWS * (WIDTH + 1)], room[PERIOD + 1];
static uint8_t file[FENYURKA_LONGEST_FILE];
/* The rows of the list, and the bytes in the file. */
static size_t rows, length;
static volatile uint32_t sink;

/* The kinds of lists: how they are asked for, and what stands behind the names of their figures. */
struct kind {
    uint32_t floor, gaps;
    const char *name;
};
static const struct kind plain = {0, 0, ""}, at_floor = {FLOOR, 0, ", floor 32"}, with_gaps = {0, 1, ", gaps"};

static void mark(void)
{
    sink = (uint32_t)getppid();
}

static void measured(const char *what, struct kind kind, size_t units)
{
    mark();
    printf("%u %zu %s%s\n", degree, units, what, kind.name);
}

static void wrong(const char *what)
{
    printf("wrong answer: %s\n", what);
    exit(1);
}

/* How many rows are sampled; the place of sample k, spread over a list; its row. */
static size_t samples(void)
{
    return rows < SAMPLE ? rows : SAMPLE;
}

static size_t place_of(size_t k)
{
    return rows <= SAMPLE ? k : k * rows / SAMPLE;
}

static const uint32_t *sample(size_t k)
{
    return list + place_of(k) * WIDTH;
}

/* Well-formed pairs by a fixed recurrence. */
static void draw(uint32_t *seed, uint32_t *p, uint32_t *q)
{
    uint32_t size = 1u << degree;
    *seed = *seed * 1664525 + 1013904223;
    *p = size + (*seed >> 7) % size;
    *seed = *seed * 1664525 + 1013904223;
    *q = 1 + (*seed >> 7) % (size - 1);
}

/* How many rows of the list have a step of at least the floor. */
static size_t left_by(uint32_t floor)
{
    size_t left = 0;
    for (size_t k = 0; k < rows; k++)
        left += list[k * WIDTH + STEP] >= floor;
    return left;
}

/* The whole list goes into the buffer. The others are compared with the plain one, which comes first. */
static void pages(struct kind kind, uint32_t *into)
{
    FenyurkaList asked = {.degree = degree, .top = TOP, .floor = kind.floor, .gaps = kind.gaps};
    size_t width = WIDTH + kind.gaps;
    mark();
    FenyurkaPage page = fenyurka_first_page(asked, into, MOST_ROWS * width);
    measured("page: whole list, T = 8", kind, 1);
    if (into == list)
        rows = page.count;
    if (page.refusal != 0 || page.more || page.count != left_by(kind.floor))
        wrong("whole list");
    const uint32_t *middle = into + page.count / 2 * width, p = middle[0], q = middle[1];
    mark();
    if (fenyurka_first_page(asked, room, 50 * width).refusal != 0)
        wrong("first page");
    measured("page: first of 50 rows, T = 8", kind, 1);
    asked.top = 5;
    mark();
    if (fenyurka_first_page(asked, room, 50 * (6 + kind.gaps)).refusal != 0)
        wrong("first page");
    measured("page: first of 50 rows, T = 5", kind, 1);
    asked.top = TOP;
    mark();
    if (fenyurka_page_after(asked, p, q, room, 50 * width).refusal != 0)
        wrong("page after");
    measured("page: 50 rows from the middle, T = 8", kind, 1);
}

/* The whole list, a third of it at a time. */
static void walk(struct kind kind)
{
    FenyurkaList asked = {.degree = degree, .top = TOP, .floor = kind.floor, .gaps = kind.gaps};
    size_t width = WIDTH + kind.gaps, part = (rows / 3 + 1) * width;
    mark();
    FenyurkaPage page = fenyurka_first_page(asked, room, part);
    size_t done = page.count;
    while (page.more) {
        const uint32_t *last = room + (page.count - 1) * width;
        page = fenyurka_page_after(asked, last[0], last[1], room, part);
        done += page.count;
    }
    measured("page: the list in 3 pages, T = 8", kind, 1);
    if (page.refusal != 0 || done != rows)
        wrong("walk");
}

static void judging(void)
{
    uint32_t p, q, seed = 1;
    size_t n = samples(), reaching = 0;
    mark();
    for (size_t k = 0; k < n; k++) {
        FenyurkaJudgement judgement = fenyurka_judge(degree, 0, sample(k)[0], sample(k)[1]);
        if (judgement.refusal != 0 || judgement.step != sample(k)[STEP])
            wrong("judging");
    }
    measured("judging an accepted pair", plain, n);
    mark();
    for (size_t k = 0; k < n; k++) {
        if (sample(k)[STEP] < FLOOR)
            continue;
        reaching++;
        FenyurkaJudgement judgement = fenyurka_judge(degree, FLOOR, sample(k)[0], sample(k)[1]);
        if (judgement.refusal != 0 || judgement.step != sample(k)[STEP])
            wrong("judging, floor 32");
    }
    measured("judging an accepted pair", at_floor, reaching);
    mark();
    for (int k = 0; k < 1000; k++) {
        draw(&seed, &p, &q);
        sink = fenyurka_judge(degree, 0, p, q).refusal;
    }
    measured("judging any pair", plain, 1000);
}

/* Pairs that are refused 5: p of a row, and some q. */
static void refusals(void)
{
    static uint32_t ps[SAMPLE], qs[SAMPLE];
    FenyurkaList asked = {.degree = degree, .top = TOP};
    uint32_t p, seed = 3;
    size_t n = samples();
    for (size_t k = 0; k < n; k++) {
        ps[k] = sample(k)[0];
        do
            draw(&seed, &p, &qs[k]);
        while (fenyurka_judge(degree, 0, ps[k], qs[k]).refusal != 5);
    }
    mark();
    for (size_t k = 0; k < n; k++)
        sink = fenyurka_judge(degree, 0, ps[k], qs[k]).refusal;
    measured("judging a pair refused 5", plain, n);
    mark();
    for (size_t k = 0; k < n; k++)
        sink = fenyurka_page_after(asked, ps[k], qs[k], room, WIDTH).refusal;
    measured("page: after a pair refused 5", plain, n);
    mark();
    for (size_t k = 0; k < n; k++)
        sink = fenyurka_points(degree, 0, ps[k], qs[k], 0, room, 1).refusal;
    measured("points: of a pair refused 5", plain, n);
}

static void quotients(void)
{
    uint32_t p, q, seed = 4;
    mark();
    for (int k = 0; k < 1000; k++) {
        draw(&seed, &p, &q);
        sink = fenyurka_quotients(degree, p, q).quotient_degree;
    }
    measured("quotient test of any pair", plain, 1000);
}

static void t_values(void)
{
    uint32_t p, q, seed = 2;
    size_t n = samples();
    for (uint32_t s = 5; s <= 8; s += 3) {
        mark();
        for (size_t k = 0; k < n; k++) {
            FenyurkaTValue value = fenyurka_t_value(degree, sample(k)[0], sample(k)[1], s);
            if (value.refusal != 0 || value.t != sample(k)[s])
                wrong("t-value");
        }
        measured(s == 5 ? "t(5) of an accepted pair" : "t(8) of an accepted pair", plain, n);
    }
    mark();
    for (int k = 0; k < SAMPLE; k++) {
        draw(&seed, &p, &q);
        sink = fenyurka_t_value(degree, p, q, 8).t;
    }
    measured("t(8) of any pair", plain, SAMPLE);
}

/* Of rows that have it, and of any pair. */
static void sums_of_gaps(void)
{
    uint32_t p, q, seed = 5;
    size_t n = samples();
    mark();
    for (size_t k = 0; k < n; k++) {
        const uint32_t *row = gap_list + place_of(k) * (WIDTH + 1);
        FenyurkaGaps gaps = fenyurka_sum_of_gaps(degree, row[0], row[1]);
        if (gaps.refusal != 0 || gaps.delta != row[WIDTH])
            wrong("sum of gaps");
    }
    measured("sum of gaps of an accepted pair", plain, n);
    mark();
    for (int k = 0; k < SAMPLE; k++) {
        draw(&seed, &p, &q);
        sink = fenyurka_sum_of_gaps(degree, p, q).delta;
    }
    measured("sum of gaps of any pair", plain, SAMPLE);
}

/* By the plain counter, which goes to degree 8: rows of the list, and the pair for which it counts the most shapes. */
static void counts(void)
{
    size_t n = samples();
    mark();
    for (size_t k = 0; k < n; k++) {
        FenyurkaTValue value = fenyurka_count_t_value(degree, sample(k)[0], sample(k)[1], 8);
        if (value.refusal != 0 || value.t != sample(k)[8])
            wrong("t-value counted");
    }
    measured("t(8) of an accepted pair, counted", plain, n);
    mark();
    FenyurkaTValue longest = fenyurka_count_t_value(degree, 440, 53, 8);
    measured("t(8) of (440, 53), counted", plain, 1);
    if (longest.refusal != 0 || longest.t != fenyurka_t_value(degree, 440, 53, 8).t)
        wrong("t-value counted");
}

/* Of the list's first pair, whose step is at least the floor in these degrees. */
static void points(struct kind kind)
{
    size_t period = ((size_t)1 << degree) - 1;
    mark();
    FenyurkaPoints words = fenyurka_points(degree, kind.floor, list[0], list[1], 0, room, PERIOD + 1);
    if (words.refusal != 0 || words.count != period)
        wrong("points");
    measured("points: a word of the whole period", kind, period);
    mark();
    words = fenyurka_points(degree, kind.floor, list[0], list[1], (uint32_t)period / 2, room, 1);
    if (words.refusal != 0 || words.count != 1)
        wrong("points");
    measured("points: one word amid the period", kind, 1);
}

/* Leaves a catalogue of the degrees first .. last in the file. */
static void write_degrees(struct kind kind, uint32_t first, uint32_t last)
{
    uint32_t entries[30];
    size_t n = 0;
    for (uint32_t m = first; m <= last; m++) {
        entries[n++] = m;
        entries[n++] = TOP + MARK * kind.gaps;
    }
    FenyurkaFile written = fenyurka_write(kind.floor, entries, n, file, sizeof file);
    if (written.refusal != 0)
        wrong("writing");
    length = written.length;
}

/* Leaves the catalogue of this degree alone in the file. */
static void writing(struct kind kind)
{
    mark();
    write_degrees(kind, degree, degree);
    measured("writing: this degree alone, T = 8", kind, 1);
    if (length != 9 + left_by(kind.floor) * (TOP + 4 + kind.gaps))
        wrong("length");
}

/* Leaves the plain one of this degree alone there. */
static void writing_all(void)
{
    mark();
    write_degrees(plain, 2, degree);
    measured("writing: degrees 2 to this one, T = 8", plain, 1);
    mark();
    for (uint32_t m = 2; m <= degree; m++)
        write_degrees(plain, m, m);
    measured("writing: the same, a file for each", plain, 1);
}

/* The catalogue of this degree alone that is in the file. */
static void catalogue(struct kind kind)
{
    size_t read = 0;
    mark();
    FenyurkaCatalogue opened = fenyurka_open(file, length);
    if (opened.refusal != 0 || opened.entries != 1)
        wrong("opening");
    measured("opening a catalogue, a row of it", kind, rows);
    mark();
    FenyurkaBody body = fenyurka_lookup(file, length, degree);
    if (body.refusal != 0 || body.rows != rows || body.gaps != kind.gaps)
        wrong("lookup");
    measured("looking a degree up, a row of it", kind, rows);
    FenyurkaList asked = {.degree = degree, .top = body.top, .gaps = body.gaps};
    mark();
    FenyurkaRow row = fenyurka_row(asked, file + body.offset, body.length, 0);
    while (row.count > 0) {
        read++;
        row = fenyurka_row(asked, file + body.offset, body.length, row.next);
    }
    measured("reading a row", kind, rows);
    if (read != rows)
        wrong("reading");
}

int main(void)
{
    for (degree = 8; degree <= 16; degree += 2) {
        pages(plain, list);
        pages(at_floor, room);
        pages(with_gaps, gap_list);
        walk(plain);
        walk(with_gaps);
        judging();
        refusals();
        quotients();
        t_values();
        sums_of_gaps();
        if (degree == 8)
            counts();
        points(plain);
        points(at_floor);
        writing(plain);
        writing(at_floor);
        writing_all();
        catalogue(plain);
        writing(with_gaps);
        catalogue(with_gaps);
    }
    return 0;
}
