/* One call of the library at a time, compared with the reference: every field of a result, every number of a buffer, every number
   around it. */
#include "calls.h"
#include "fenyurka.h"

#include <inttypes.h>
#include <stdio.h>
#include <stdlib.h>
#include <string.h>
#include <sys/mman.h>

/* ---- what is compared, and chance */

enum call { JUDGE, QUOTIENTS, T_VALUE, COUNT, GAPS, FIRST_PAGE, PAGE_AFTER, WALK, POINTS, OPEN, LOOKUP, ROW, END, WRITE, READ_BACK, CALLS };
static const char *const names[CALLS] = {
    "judgements",         "quotient tests",   "t-values", "t-values counted", "sums of gaps", "first pages",
    "pages after a pair", "walks to the end", "points",   "openings",         "lookups",      "rows read",
    "ends of bodies",     "files",            "files read back",
};
/* How often each was answered with each number, how often with rows that have the sum of gaps, and how often any differed. */
enum { MOST_REFUSAL = 14 };
static unsigned long answered[CALLS][MOST_REFUSAL + 1], with_gaps[CALLS], differing;

static void same(enum call call, uint32_t answer, int agrees, const uint64_t *asked, int n)
{
    answered[call][answer <= MOST_REFUSAL ? answer : 0]++;
    if (agrees || differing++ >= 20)
        return;
    printf("DIFFERENCE in %s asked", names[call]);
    for (int i = 0; i < n; i++)
        printf(" %" PRIu64, asked[i]);
    printf("\n");
}
#define SAME(call, answer, agrees, ...) \
    same(call, answer, agrees, (const uint64_t[]){__VA_ARGS__}, sizeof((const uint64_t[]){__VA_ARGS__}) / sizeof(uint64_t))

uint64_t chance;

uint32_t draw(void)
{
    chance ^= chance << 13;
    chance ^= chance >> 7;
    chance ^= chance << 17;
    return (uint32_t)(chance * 0x9E3779B97F4A7C15u >> 32);
}

/* A number below n. */
uint32_t below(uint32_t n)
{
    return (uint32_t)((uint64_t)draw() * n >> 32);
}

const uint32_t extremes[EXTREMES] = {
    0, 1, 2, 3, 4, 5, 7, 8, 9, 11, 15, 16, 17, 18, 19, 24, 25, 31, 32, 33, 63, 64, 65, 255, 256, 65534, 65535, 65536, 131071, 131072,
    0x7FFFFFFF, 0x80000000, 0xFFFFFFFE, 0xFFFFFFFF,
};

/* A degree, nearly always that of the pair. */
uint32_t near(uint32_t m)
{
    uint32_t kind = below(40);
    return kind == 0 ? m + 1 : kind == 1 ? m - 1 : kind == 2 ? extremes[below(EXTREMES)] : m;
}

/* A floor: 0 or 1, a small one, one beside 32, any lawful one, or any number. */
uint32_t draw_floor(void)
{
    switch (below(10)) {
    case 0:
    case 1:
        return below(2);
    case 2:
        return 2 + below(6);
    case 3:
        return MOST_FLOOR - 1 + below(3);
    case 4:
        return extremes[below(EXTREMES)];
    case 5:
        return draw();
    default:
        return below(MOST_FLOOR + 1);
    }
}

/* The same, or beside the step of a pair that floor 0 accepts; seldom a step that is no lawful floor. */
uint32_t floor_for(uint32_t m, uint32_t p, uint32_t q)
{
    uint32_t step;
    if (below(2) || reference_judge(m, 0, p, q, &step) != 0 || (step > MOST_FLOOR + 1 && below(8)))
        return draw_floor();
    return step - 1 + below(3);
}

uint32_t draw_gaps(void)
{
    uint32_t kind = below(6);
    return kind < 3 ? 0 : kind == 3 ? 1 : kind == 4 ? extremes[below(EXTREMES)] : draw();
}

/* ---- memory that tells: numbers in the midst of others, bytes that end where a page is that nobody may read */

enum { AROUND = 64, LONGEST = 70000 };
static uint32_t arena[AROUND + LONGEST + AROUND], expected[AROUND + LONGEST + AROUND];

/* Fills what a slice of this length and its surroundings hold before a call; gives the slice. */
static uint32_t *slice_of(size_t length)
{
    uint32_t mark = draw();
    for (size_t i = 0; i < AROUND + length + AROUND; i++)
        expected[i] = arena[i] = mark + (uint32_t)i * 0x9E3779B9u;
    return arena + AROUND;
}

static int slice_is(const uint32_t *written, size_t count, size_t length)
{
    memcpy(expected + AROUND, written, count * sizeof written[0]);
    return memcmp(arena, expected, (AROUND + length + AROUND) * sizeof arena[0]) == 0;
}

enum { FENCE = 1 << 16 };

/* Puts bytes at the end of the first or the second memory that has a fence behind it. */
static void *fenced(int second, const void *bytes, size_t length)
{
    static uint8_t *ends[2];
    uint8_t **end = &ends[second];
    if (*end == NULL) {
        uint8_t *start = mmap(NULL, MOST_BYTES + FENCE, PROT_READ | PROT_WRITE, MAP_PRIVATE | MAP_ANONYMOUS, -1, 0);
        if (start == MAP_FAILED || mprotect(start + MOST_BYTES, FENCE, PROT_NONE) != 0)
            abort();
        *end = start + MOST_BYTES;
    }
    return length == 0 ? *end : memcpy(*end - length, bytes, length);
}

/* ---- one call each */

/* What a refusal carries: 5 the largest degree among the partial quotients of its pair, any other nothing. */
static uint32_t carried_by(uint32_t refusal, uint32_t m, uint32_t p, uint32_t q)
{
    uint32_t largest = 0, common;
    if (refusal == 5)
        reference_quotients(m, p, q, &largest, &common);
    return largest;
}

void try_judge(uint32_t m, uint32_t floor, uint32_t p, uint32_t q)
{
    uint32_t step = 0, refusal = reference_judge(m, floor, p, q, &step);
    FenyurkaJudgement got = fenyurka_judge(m, floor, p, q);
    int agrees = got.refusal == refusal && got.step == step && got.quotient_degree == carried_by(refusal, m, p, q);
    SAME(JUDGE, refusal, agrees, m, floor, p, q);
}

void try_quotients(uint32_t m, uint32_t p, uint32_t q)
{
    uint32_t largest = 0, common = 0, refusal = reference_quotients(m, p, q, &largest, &common);
    FenyurkaQuotients got = fenyurka_quotients(m, p, q);
    int agrees = got.refusal == refusal && got.quotient_degree == largest && got.common_degree == common;
    SAME(QUOTIENTS, refusal, agrees, m, p, q);
}

void try_t_value(uint32_t m, uint32_t p, uint32_t q, uint32_t dimension)
{
    uint32_t t = 0, refusal = reference_t_value(m, p, q, dimension, &t);
    FenyurkaTValue got = fenyurka_t_value(m, p, q, dimension);
    SAME(T_VALUE, refusal, got.refusal == refusal && got.t == t, m, p, q, dimension);
}

/* Both engines of a degree that is counted, and both ways of the reference. */
void try_count(uint32_t m, uint32_t p, uint32_t q, uint32_t dimension)
{
    uint32_t t = 0, refusal = reference_count(m, p, q, dimension, &t);
    FenyurkaTValue got = fenyurka_count_t_value(m, p, q, dimension);
    int agrees = got.refusal == refusal && got.t == t;
    if (refusal == 0)
        agrees = agrees && fenyurka_t_value(m, p, q, dimension).t == t && reference_t_by_rank(m, p, q, dimension) == t;
    SAME(COUNT, refusal, agrees, m, p, q, dimension);
}

void try_gaps(uint32_t m, uint32_t p, uint32_t q)
{
    uint32_t sum = 0, refusal = reference_gaps(m, p, q, &sum);
    FenyurkaGaps got = fenyurka_sum_of_gaps(m, p, q);
    SAME(GAPS, refusal, got.refusal == refusal && got.delta == sum, m, p, q);
}

/* Both ways of the reference. */
void try_cubes(uint32_t m, uint32_t p, uint32_t q)
{
    uint32_t sum = reference_gaps_by_counting(m, p, q);
    FenyurkaGaps got = fenyurka_sum_of_gaps(m, p, q);
    SAME(GAPS, 0, got.refusal == 0 && got.delta == sum && reference_gaps_by_rank(m, p, q) == sum, m, p, q);
}

/* The list as the library has it. */
static FenyurkaList asked_for(struct selection l)
{
    return (FenyurkaList){.degree = l.degree, .top = l.top, .floor = l.floor, .gaps = l.gaps};
}

void try_page(struct selection l, int after, uint32_t p, uint32_t q, size_t length)
{
    const uint32_t *rows = arena;
    uint32_t more = 0, *slice = slice_of(length);
    size_t count = 0;
    uint32_t refusal = reference_page(l, after, p, q, length, &rows, &count, &more);
    FenyurkaPage got = after ? fenyurka_page_after(asked_for(l), p, q, slice, length) : fenyurka_first_page(asked_for(l), slice, length);
    int agrees = got.refusal == refusal && got.quotient_degree == carried_by(refusal, l.degree, p, q) && got.more == more
                 && got.count == count && slice_is(rows, refusal ? 0 : count * row_width(l), length);
    enum call call = after ? PAGE_AFTER : FIRST_PAGE;
    with_gaps[call] += l.gaps != 0;
    SAME(call, refusal, agrees, l.degree, l.top, l.floor, l.gaps, p, q, length);
}

void try_points(uint32_t m, uint32_t floor, uint32_t p, uint32_t q, uint32_t first, size_t length)
{
    static uint32_t words[LONGEST];
    size_t count = 0;
    uint32_t *slice = slice_of(length), refusal = reference_points(m, floor, p, q, first, words, length, &count);
    FenyurkaPoints got = fenyurka_points(m, floor, p, q, first, slice, length);
    int agrees = got.refusal == refusal && got.quotient_degree == carried_by(refusal, m, p, q) && got.count == count
                 && slice_is(words, count, length);
    SAME(POINTS, refusal, agrees, m, floor, p, q, first, length);
}

void try_open(const uint8_t *bytes, size_t length)
{
    uint32_t entries = 0, refusal = reference_open(bytes, length, &entries);
    const uint8_t *file = fenced(0, bytes, length);
    FenyurkaCatalogue got = fenyurka_open(file, length);
    SAME(OPEN, refusal, got.refusal == refusal && got.entries == entries && memcmp(file, bytes, length) == 0, length);
}

void try_lookup(const uint8_t *bytes, size_t length, uint32_t m)
{
    struct reference_body body = {0};
    uint32_t refusal = reference_lookup(bytes, length, m, &body);
    const uint8_t *file = fenced(0, bytes, length);
    FenyurkaBody got = fenyurka_lookup(file, length, m);
    int agrees = got.refusal == refusal && got.top == body.top && got.gaps == body.gaps && got.rows == body.rows
                 && got.row_size == body.row_size && got.offset == body.offset && got.length == body.length
                 && memcmp(file, bytes, length) == 0;
    with_gaps[LOOKUP] += body.gaps;
    SAME(LOOKUP, refusal, agrees, length, m);
}

int try_row(const uint8_t *bytes, size_t length, struct selection l, size_t place)
{
    uint32_t row[LONGEST_ROW] = {0};
    size_t next = place;
    const uint8_t *body = fenced(0, bytes, length);
    int found = reference_row(bytes, length, l, place, row, &next);
    l.floor = draw_floor();
    FenyurkaRow got = fenyurka_row(asked_for(l), body, length, place);
    int agrees = got.count == (found ? row_width(l) : 0) && got.next == next && memcmp(got.numbers, row, sizeof row) == 0
                 && memcmp(body, bytes, length) == 0;
    enum call call = found ? ROW : END;
    with_gaps[call] += l.gaps != 0;
    SAME(call, 0, agrees, length, l.degree, l.top, l.floor, l.gaps, place);
    return found;
}

/* Whether the library's own calls read a file that was written for these numbers as the same degrees, T, kinds and rows. */
static int read_back(uint32_t floor, const uint32_t *numbers, size_t count, const uint8_t *file, size_t length)
{
    FenyurkaCatalogue opened = fenyurka_open(file, length);
    int agrees = opened.refusal == 0 && opened.entries == count / 2;
    for (uint32_t m = LEAST_DEGREE; m <= MOST_DEGREE; m++) {
        size_t i = 0, all, place = 0;
        FenyurkaBody body = fenyurka_lookup(file, length, m);
        while (i < count && numbers[i] != m)
            i += 2;
        if (i == count) {
            agrees &= body.refusal == 10;
            continue;
        }
        struct selection l = selection_of(m, numbers[i + 1], floor);
        uint32_t width = row_width(l);
        const uint32_t *list = reference_list(l, &all);
        agrees &= body.refusal == 0 && body.top == l.top && body.gaps == l.gaps && body.rows == all;
        for (size_t r = 0; agrees && r <= all; r++) {
            FenyurkaRow row = fenyurka_row(asked_for(l), file + body.offset, body.length, place);
            agrees = row.count == (r < all ? width : 0) && memcmp(row.numbers, list + r * width, row.count * sizeof list[0]) == 0;
            place = row.next;
        }
    }
    return agrees;
}

static size_t longest_file;

/* The buffer and bytes in front of it hold marks before the call; the numbers stand elsewhere; both end where nobody may read. */
void try_write(uint32_t floor, const uint32_t *numbers, size_t count, size_t length)
{
    static uint8_t marked[MOST_BYTES];
    const uint8_t *file = NULL;
    size_t file_length = 0, size = count * sizeof numbers[0];
    uint32_t refusal = reference_write(floor, numbers, count, length, &file, &file_length), mark = draw();
    for (size_t i = 0; i < AROUND + length; i++)
        marked[i] = (uint8_t)((mark + (uint32_t)i * 0x9E3779B9u) >> 24);
    uint8_t *buffer = (uint8_t *)fenced(0, marked, AROUND + length) + AROUND;
    const uint32_t *entries = fenced(1, numbers, size);
    FenyurkaFile got = fenyurka_write(floor, entries, count, buffer, length);
    if (refusal == 0)
        memcpy(marked + AROUND, file, file_length);
    int agrees = got.refusal == refusal && got.length == file_length && memcmp(buffer - AROUND, marked, AROUND + length) == 0
                 && memcmp(entries, numbers, size) == 0;
    uint64_t asked[2 + 2 * MOST_ENTRIES + 1] = {length, floor};
    int n = 2, gaps = 0;
    for (size_t i = 0; i < count && i <= 2 * MOST_ENTRIES; i++) {
        asked[n++] = numbers[i];
        gaps |= i % 2 && numbers[i] >= GAPS_MARK;
    }
    with_gaps[WRITE] += gaps;
    same(WRITE, refusal, agrees, asked, n);
    longest_file = got.length > longest_file ? got.length : longest_file;
    if (refusal != 0)
        return;
    with_gaps[READ_BACK] += gaps;
    same(READ_BACK, 0, read_back(floor, numbers, count, buffer, file_length), asked, n);
}

/* Walks from the start to the end by the library's own answers, with buffers of `least` to `most` rows: the joined rows are the list. */
void try_walk(struct selection l, uint32_t least, uint32_t most)
{
    size_t all, done = 0;
    const uint32_t *list = reference_list(l, &all);
    uint32_t more = 1, p = 0, q = 0, width = row_width(l);
    int agrees = 1;
    for (int after = 0; agrees && more; after = 1) {
        size_t length = (least + below(most - least + 1)) * width + below(width);
        uint32_t *rows = slice_of(length);
        FenyurkaPage page = after ? fenyurka_page_after(asked_for(l), p, q, rows, length) : fenyurka_first_page(asked_for(l), rows, length);
        agrees = page.refusal == 0 && done + page.count <= all && (page.count > 0 || !page.more)
                 && memcmp(rows, list + done * width, page.count * width * sizeof rows[0]) == 0;
        done += page.count;
        more = page.more;
        if (page.count > 0) {
            p = rows[(page.count - 1) * width];
            q = rows[(page.count - 1) * width + 1];
        }
    }
    with_gaps[WALK] += l.gaps != 0;
    SAME(WALK, 0, agrees && done == all, l.degree, l.top, l.floor, l.gaps, least, most);
}

/* ---- the result */

int report(void)
{
    printf("%-20s %10s %10s   of them refused with 1 .. %d\n", "compared", "calls", "with gaps", MOST_REFUSAL);
    for (int c = 0; c < CALLS; c++) {
        unsigned long sum = 0;
        for (int a = 0; a <= MOST_REFUSAL; a++)
            sum += answered[c][a];
        printf("%-20s %10lu %10lu  ", names[c], sum, with_gaps[c]);
        for (int a = 1; a <= MOST_REFUSAL; a++)
            printf(" %lu", answered[c][a]);
        printf("\n");
    }
    printf("longest file %zu bytes, the header says %d\n", longest_file, FENYURKA_LONGEST_FILE);
    differing += longest_file != FENYURKA_LONGEST_FILE;
    printf("differences %lu\n", differing);
    return differing != 0;
}
