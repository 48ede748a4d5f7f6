/* Documents 01 and 02 in plain C, slow and literal: what the library is compared with. Shares nothing with it, nor the header. */
#ifndef REFERENCE_H
#define REFERENCE_H

#include <stddef.h>
#include <stdint.h>

enum { LEAST_DEGREE = 2, MOST_DEGREE = 16, LEAST_TOP = 3, MOST_TOP = 8, MOST_DIMENSION = 8, MOST_FLOOR = 32 };
enum { LONGEST_ROW = 10, MOST_ENTRIES = 15, MOST_COUNTED = 8, MOST_CUBED = 9, GAPS_MARK = 16 };

static inline int lawful_degree(uint32_t m)
{
    return LEAST_DEGREE <= m && m <= MOST_DEGREE;
}

static inline int lawful_top(uint32_t top)
{
    return LEAST_TOP <= top && top <= MOST_TOP;
}

static inline int lawful_floor(uint32_t floor)
{
    return floor <= MOST_FLOOR;
}

/* Which ranked list is meant. Its rows have the sum of resolution gaps where `gaps` is not 0. */
struct selection {
    uint32_t degree, top, floor, gaps;
};

/* How many numbers a row has: p, q, the step, t(3) .. t(T), and the sum of gaps. */
static inline uint32_t row_width(struct selection l)
{
    return l.top + 1 + (l.gaps != 0);
}

/* How many bytes it has in a catalogue: two for each of the first three numbers. */
static inline uint32_t row_bytes(struct selection l)
{
    return row_width(l) + 3;
}

/* What an entry of a catalogue means, whose second number is T, or T + 16 where the rows have the sum of gaps; and that number. */
static inline struct selection selection_of(uint32_t degree, uint32_t number, uint32_t floor)
{
    uint32_t gaps = number >= GAPS_MARK;
    return (struct selection){degree, number - gaps * GAPS_MARK, floor, gaps};
}

static inline uint32_t marked_top(struct selection l)
{
    return l.top + (l.gaps != 0) * GAPS_MARK;
}

/* Each is a refusal's number, or 0 with the answer. */
uint32_t reference_judge(uint32_t degree, uint32_t floor, uint32_t p, uint32_t q, uint32_t *step);
uint32_t reference_quotients(uint32_t degree, uint32_t p, uint32_t q, uint32_t *largest, uint32_t *common);
uint32_t reference_t_value(uint32_t degree, uint32_t p, uint32_t q, uint32_t dimension, uint32_t *t);
/* The same of the plain counter, for degrees 2 to MOST_COUNTED. */
uint32_t reference_count(uint32_t degree, uint32_t p, uint32_t q, uint32_t dimension, uint32_t *t);
/* The sum of resolution gaps: by counting up to the degree MOST_CUBED, by ranks above. */
uint32_t reference_gaps(uint32_t degree, uint32_t p, uint32_t q, uint32_t *sum);

/* The t-value of a well-formed pair, and its sum of gaps: by counting points in every box or cube, and by the ranks of generating
   matrices. */
uint32_t reference_t_by_counting(uint32_t degree, uint32_t p, uint32_t q, uint32_t dimension);
uint32_t reference_t_by_rank(uint32_t degree, uint32_t p, uint32_t q, uint32_t dimension);
uint32_t reference_gaps_by_counting(uint32_t degree, uint32_t p, uint32_t q);
uint32_t reference_gaps_by_rank(uint32_t degree, uint32_t p, uint32_t q);

/* The ranked list that a lawful selection means: its length, and its rows one behind the other. Kept until the program ends. */
const uint32_t *reference_list(struct selection l, size_t *count);

/* A page after the pair where `after` is not 0, else from the start; where no refusal, *rows are the rows that a slice takes. */
uint32_t reference_page(struct selection l, int after, uint32_t p, uint32_t q, size_t slice, const uint32_t **rows, size_t *count,
                        uint32_t *more);

/* The words of a period from `first` on, at most `slice` of them, into memory that takes them. */
uint32_t reference_points(uint32_t degree, uint32_t floor, uint32_t p, uint32_t q, uint32_t first, uint32_t *words, size_t slice,
                          size_t *count);

uint32_t reference_open(const uint8_t *file, size_t length, uint32_t *entries);

/* The body of a degree: its top dimension, 1 where its rows have the sum of gaps, its rows and the bytes of one, where it begins in
   the file and its bytes. */
struct reference_body {
    uint32_t top, gaps, rows;
    size_t offset, length, row_size;
};
uint32_t reference_lookup(const uint8_t *file, size_t length, uint32_t degree, struct reference_body *body);

/* 1 where a reader has a row at the place, which is then in `row`; 0 at the end. The floor is not looked at. */
int reference_row(const uint8_t *body, size_t length, struct selection l, size_t place, uint32_t *row, size_t *next);

/* The catalogue of the ranked lists at a floor that the numbers degree, T or T + 16, degree, .. ask for, for a buffer of `room` bytes.
   Where no refusal, *file is the whole file, kept until the next call. */
uint32_t reference_write(uint32_t floor, const uint32_t *numbers, size_t count, size_t room, const uint8_t **file, size_t *length);

#endif
