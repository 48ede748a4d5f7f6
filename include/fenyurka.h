/*
 * Fenyurka for C and C++: judges and ranks short-period Tausworthe generators over F_2, writes out their points, and writes and
 * reads catalogues of ranked lists.
 *
 * Proved for every input: each function returns, and its result and every element of a buffer equal the definition
 * (crates/definitions; for the structs the specs of crates/answers, crates/pair_results, crates/slice_results,
 * crates/catalogue_results, crates/row_results, crates/interface and crates/catalogue_seek).
 *
 * Polynomials are numbers: bit i is the coefficient of x^i, so 11 is x^3 + x + 1. A generator is a pair (p, q) with p of degree
 * m (2 to 16) and 1 <= q < 2^m. You need not check numbers before a call: any 32-bit value is allowed for any number.
 *
 * Floor. With a step below 32 neighbouring words share digits. Judging, lists, points and files therefore take a floor, 0 to 32, and
 * accept only pairs whose step is at least the floor: 32 leaves all such steps out, 0 and 1 leave out none.
 *
 * Results. Every function returns a struct by value. Its field `refusal` is 0, or the number of a refusal (enum fenyurka_refusal).
 * Each function lists its refusals in the order in which they are tested, and the first that applies is given. All other fields are 0
 * when the call is refused, with one exception: refusal 5 comes with `quotient_degree`, which says how bad the quotients of the pair
 * are. fenyurka_row has no refusals.
 *
 * Buffers. A buffer is two parameters, a pointer and a length in elements. A refused call writes nothing; any other call writes
 * only what its comment says, from the front of the buffer, and leaves the elements behind that unchanged. The caller must pass
 *   - a pointer that is valid for the length and aligned for its type;
 *   - a non-NULL pointer, also for length 0 (nothing is read or written then);
 *   - a writable buffer that overlaps no other buffer of the call.
 *
 * Gaps. Document 001 reports a second figure of a pair beside its t-values: the sum of resolution gaps (Delta), see fenyurka_sum_of_gaps.
 * The rows of a list have it as their last number where the list asks for it; it then ranks after the t-values and before p and q.
 *
 * Initialise FenyurkaList by field names: FenyurkaList list = {.degree = 10, .top = 5, .floor = 32}. A field that is not named is 0: no
 * floor, rows without the sum of gaps.
 * Later versions may add fields to structs; programs written in this way then have to be recompiled, and not changed.
 *
 * No function allocates memory, keeps a pointer, prints or has state, so calls with different buffers may run in parallel.
 * fenyurka_write needs less than 136 KB of stack, since it keeps a whole list there: mind this in a thread with a small stack. Any
 * other call needs less than 24 KB (23 KB for a page, 14 KB for fenyurka_count_t_value, 5 KB for fenyurka_points, 3 KB otherwise).
 * tests/c/stack.c measures this.
 *
 * Link with target/staticlib/libinterface.a, which ./staticlib writes (x86-64 Linux). tests/c/declarations compares this file with
 * its source.
 */
#ifndef FENYURKA_H
#define FENYURKA_H

#include <stddef.h>
#include <stdint.h>

#ifdef __cplusplus
extern "C" {
#endif

/* Why a call is refused. */
enum fenyurka_refusal {
    FENYURKA_WRONG_DEGREE = 1,         /* the degree is not 2 to 16; for fenyurka_count_t_value, not 2 to 8 */
    FENYURKA_WRONG_DIMENSION = 2,      /* the top dimension is not 3 to 8; for a single t-value, the dimension is not 1 to 8 */
    FENYURKA_ILL_FORMED_PAIR = 3,      /* not 2^m <= p < 2^(m+1) and 1 <= q < 2^m */
    FENYURKA_NOT_PRIMITIVE = 4,        /* 2^m - 1 is not the smallest e >= 1 with x^e = 1 (mod p) */
    FENYURKA_QUOTIENT_NOT_LINEAR = 5,  /* p is primitive, and some partial quotient of q/p is not of degree one */
    FENYURKA_STEP_NOT_COPRIME = 6,     /* the step has a common factor with 2^m - 1 */
    FENYURKA_SHORT_SLICE = 7,          /* the buffer is shorter than a row */
    FENYURKA_BEYOND_PERIOD = 8,        /* the first index is above 2^m - 2 */
    FENYURKA_ILL_FORMED_CATALOGUE = 9, /* the bytes are not a catalogue */
    FENYURKA_DEGREE_MISSING = 10,      /* the catalogue has no such degree */
    FENYURKA_STEP_BELOW_FLOOR = 11,    /* the step is below the floor */
    FENYURKA_WRONG_FLOOR = 12,         /* the floor is above 32 */
    FENYURKA_NOT_ASCENDING = 13,       /* the degrees to be written do not strictly ascend */
    FENYURKA_FILE_TOO_LONG = 14        /* the file would be longer than the buffer */
};

/* The most numbers that a row has: p, q, the step, t(3) .. t(8), the sum of gaps. */
#define FENYURKA_LONGEST_ROW 10

/* The most bytes that a file of fenyurka_write has: all degrees, T = 8, the sum of gaps, floor 0 (compared by tests/c, not proved). */
#define FENYURKA_LONGEST_FILE 99701

/* Which ranked list is meant. */
typedef struct FenyurkaList {
    uint32_t degree; /* 2 to 16 */
    uint32_t top;    /* the top dimension T, 3 to 8 */
    uint32_t floor;  /* the smallest step that a pair of the list may have, 0 to 32 */
    uint32_t gaps;   /* whether the rows have the sum of gaps: 0 no, any other number yes */
} FenyurkaList;

typedef struct FenyurkaJudgement {
    uint32_t refusal;
    uint32_t quotient_degree; /* refusal 5: the largest degree among the partial quotients, 2 to m; else 0 */
    uint32_t step;            /* the s with x^s = q (mod p) and 0 < s < 2^m - 1 */
} FenyurkaJudgement;

/*
 * Judges the pair (p, q) of this degree, whose step must be at least the floor.
 * Refusals: 1, 12, 3, 4, 5, 6, 11.
 */
FenyurkaJudgement fenyurka_judge(uint32_t degree, uint32_t floor, uint32_t p, uint32_t q);

typedef struct FenyurkaQuotients {
    uint32_t refusal;
    uint32_t quotient_degree; /* the largest degree among the partial quotients, 1 to m */
    uint32_t common_degree;   /* the degree of the common factor of p and q, 0 if there is none */
} FenyurkaQuotients;

/*
 * How bad the partial quotients of q/p are, as Euclid's algorithm on (p, q) finds them. For every well-formed pair, accepted by
 * fenyurka_judge or not. If p is primitive, fenyurka_judge with a floor of 0 to 32 gives refusal 5 exactly if quotient_degree is 2 or
 * more. The t-value in dimension 2 is the larger of quotient_degree - 1 and common_degree.
 * Refusals: 1, 3.
 */
FenyurkaQuotients fenyurka_quotients(uint32_t degree, uint32_t p, uint32_t q);

typedef struct FenyurkaTValue {
    uint32_t refusal;
    uint32_t t;
} FenyurkaTValue;

/*
 * The t-value in this dimension of the pair's point set (for every h of degree below m the digits of h q^j mod p over p,
 * j = 0 .. dimension - 1): the smallest t in 0 .. m such that for every way to share m - t digits among the coordinates, and
 * every choice of those leading digits, exactly 2^t points have them. For every well-formed pair, accepted by fenyurka_judge or not.
 * Refusals: 1, 2, 3.
 */
FenyurkaTValue fenyurka_t_value(uint32_t degree, uint32_t p, uint32_t q, uint32_t dimension);

/*
 * The same t-value for degrees 2 to 8, found by counting: all 2^m points are built, and for every way to share digits the points in each
 * box are counted, as the sentence above says it. No linear algebra is used (crates/counter and crates/box_counts are short). Proved:
 * where the degree is 2 to 8, the result equals that of fenyurka_t_value. Much slower: up to 10.1 million instructions (docs/SPEED.md).
 * Refusals: 1 (here where the degree is not 2 to 8), 2, 3.
 */
FenyurkaTValue fenyurka_count_t_value(uint32_t degree, uint32_t p, uint32_t q, uint32_t dimension);

typedef struct FenyurkaGaps {
    uint32_t refusal;
    uint32_t delta; /* the sum of resolution gaps */
} FenyurkaGaps;

/*
 * The sum of resolution gaps of the same point sets, in dimensions s = 1 .. m: the sum of floor(m/s) - l_s, where l_s is the largest l in
 * 1 .. m for which the 2^(s l) congruent cubes, l leading digits in each coordinate, hold equally many points, and 0 if there is none.
 * For every well-formed pair, accepted by fenyurka_judge or not.
 * Refusals: 1, 3.
 */
FenyurkaGaps fenyurka_sum_of_gaps(uint32_t degree, uint32_t p, uint32_t q);

typedef struct FenyurkaPage {
    uint32_t refusal;
    uint32_t quotient_degree; /* refusal 5: the largest degree among the partial quotients, 2 to m; else 0 */
    uint32_t more;            /* 1 if the list has rows behind this page, else 0 */
    size_t count;             /* how many rows were written (rows, not numbers) */
} FenyurkaPage;

/*
 * The first page of a ranked list. The list has all pairs of the degree that fenyurka_judge accepts at the list's floor, ascending by
 * t(3), then t(4), up to t(T), then by p, then by q. A row is T + 1 numbers: p, q, the step, t(3) .. t(T). If the list has `gaps`, a row is
 * T + 2 numbers, the last one the sum of gaps, and rows ascend by it after t(T) and before p. As many rows are written as fit into the
 * buffer and exist.
 * Each page costs one search over all pairs of the degree, however many rows are written: with T = 8, floor 0 and 50 rows 1.5 million
 * instructions for degree 10 and 68 million for degree 16 (docs/SPEED.md). If you need the whole list, pass a buffer that holds it.
 * Refusals: 1, 2, 12, 7.
 */
FenyurkaPage fenyurka_first_page(FenyurkaList list, uint32_t *rows, size_t rows_length);

/*
 * The page after the pair (p, q), which may be any pair of the degree that fenyurka_judge accepts at the list's floor: the last one of
 * the page before, also if that page had another length or another T, or a pair that was on no page. Keep floor and `gaps` while you
 * walk through a list: with others the rows are those of another list. Costs as much as the first page.
 * Refusals: 1, 2, 12, 3, 4, 5, 6, 11, 7.
 */
FenyurkaPage fenyurka_page_after(FenyurkaList list, uint32_t p, uint32_t q, uint32_t *rows, size_t rows_length);

typedef struct FenyurkaPoints {
    uint32_t refusal;
    uint32_t quotient_degree; /* refusal 5: the largest degree among the partial quotients, 2 to m; else 0 */
    size_t count;             /* how many words were written */
} FenyurkaPoints;

/*
 * The output of a pair that fenyurka_judge accepts at this floor: X_0 = 1, X_i = q X_(i-1) mod p, and word i holds the first 32
 * digits of X_i / p in powers of 1/x, the first digit as the highest bit. The period is 2^m - 1 words. Words first, first + 1, .. are
 * written until the buffer or the period ends; nothing wraps round. The floor decides only whether the pair is accepted.
 * Refusals: 1, 12, 3, 4, 5, 6, 11, 8 (also if the buffer is empty).
 */
FenyurkaPoints fenyurka_points(uint32_t degree, uint32_t floor, uint32_t p, uint32_t q, uint32_t first, uint32_t *words,
                               size_t words_length);

typedef struct FenyurkaCatalogue {
    uint32_t refusal;
    uint32_t entries; /* how many degrees the catalogue has, 0 to 15 */
} FenyurkaCatalogue;

/*
 * Checks that the bytes are a catalogue: its contents, the place of every body and the range of every number in every row, except the
 * sum of gaps, which may be any byte.
 * Refusals: 9.
 */
FenyurkaCatalogue fenyurka_open(const uint8_t *file, size_t file_length);

typedef struct FenyurkaBody {
    uint32_t refusal;
    uint32_t top;    /* the top dimension T of the rows */
    uint32_t gaps;   /* 1 if the rows have the sum of gaps, else 0 */
    uint32_t rows;   /* how many rows the body has, 0 or more */
    size_t offset;   /* where the body begins in the file */
    size_t length;   /* bytes of the body, rows * row_size; all of them lie within the file */
    size_t row_size; /* bytes of a row */
} FenyurkaBody;

/*
 * Looks a degree up in a catalogue, after checking the file as fenyurka_open does.
 * Refusals: 1, 9, 10.
 */
FenyurkaBody fenyurka_lookup(const uint8_t *file, size_t file_length, uint32_t degree);

typedef struct FenyurkaRow {
    size_t count;                           /* how many numbers the row has, T + 1, or T + 2 with the sum of gaps; 0 at the end */
    size_t next;                            /* the place behind the row; at the end the place that was given */
    uint32_t numbers[FENYURKA_LONGEST_ROW]; /* the row as a page has it, p with its leading term; 0 behind its numbers */
} FenyurkaRow;

/*
 * Reads one row of a body. `body` are the bytes that fenyurka_lookup found (file + offset, length), `list` their degree, top dimension
 * and `gaps`; its floor is not used. `place` is a byte offset into the body: 0 for the first row, then `next` of the row before.
 * The end is reached, and count is 0, where `place` is not the start of a whole row, or degree or top dimension is out of range.
 * The numbers are given as they stand in the file; fenyurka_open and fenyurka_lookup check their ranges, except that of the sum of gaps.
 */
FenyurkaRow fenyurka_row(FenyurkaList list, const uint8_t *body, size_t body_length, size_t place);

typedef struct FenyurkaFile {
    uint32_t refusal;
    size_t length; /* bytes of the file */
} FenyurkaFile;

/*
 * Writes a catalogue of whole ranked lists, which fenyurka_open, fenyurka_lookup and fenyurka_row read. `entries` says which lists:
 * degree, T, degree, T, .., the degrees strictly ascending; `entries_length` counts numbers, two for each list. With T + 16 (19 to 24)
 * in place of T the rows of that list have the sum of gaps. All lists have the same floor, which the file does not say. A last T that
 * is missing counts as a wrong one. The file goes over the front of the buffer, and the bytes behind it stay; with no entries it is the
 * single byte 0. The same floor and entries always give the same bytes.
 * A file has 1 byte, 8 for each entry and T + 4 for each row, T + 5 for one with the sum of gaps. If you do not know its length, pass a
 * longer buffer: FENYURKA_LONGEST_FILE bytes hold every file.
 * Costs two searches over all pairs for each entry, one that counts the rows and one that writes them; refusal 14 costs only the
 * first ones, and the refusals before it none.
 * Refusals: 1, 2, 12, 13, 14.
 */
FenyurkaFile fenyurka_write(uint32_t floor, const uint32_t *entries, size_t entries_length, uint8_t *file, size_t file_length);

#ifdef __cplusplus
}
#endif

#endif
