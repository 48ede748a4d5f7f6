/* One call of the library at a time, compared with the reference, with chance and counts. */
#ifndef CALLS_H
#define CALLS_H

#include "reference.h"

/* The seed; a 32-bit number; a number below n. */
extern uint64_t chance;
uint32_t draw(void);
uint32_t below(uint32_t n);

enum { EXTREMES = 34 };
extern const uint32_t extremes[EXTREMES];

/* A degree, nearly always m. */
uint32_t near(uint32_t m);

/* A floor, mostly lawful; for a pair also the pair's step, one less and one more. */
uint32_t draw_floor(void);
uint32_t floor_for(uint32_t m, uint32_t p, uint32_t q);

/* Whether rows have the sum of gaps: 0, or any other number. */
uint32_t draw_gaps(void);

enum { MOST_BYTES = 1 << 21 };

void try_judge(uint32_t m, uint32_t floor, uint32_t p, uint32_t q);
void try_quotients(uint32_t m, uint32_t p, uint32_t q);
void try_t_value(uint32_t m, uint32_t p, uint32_t q, uint32_t dimension);
void try_count(uint32_t m, uint32_t p, uint32_t q, uint32_t dimension);
void try_gaps(uint32_t m, uint32_t p, uint32_t q);
/* The same of a well-formed pair, with points counted in cubes whatever its degree. */
void try_cubes(uint32_t m, uint32_t p, uint32_t q);
void try_page(struct selection l, int after, uint32_t p, uint32_t q, size_t length);
void try_walk(struct selection l, uint32_t least, uint32_t most);
void try_points(uint32_t m, uint32_t floor, uint32_t p, uint32_t q, uint32_t first, size_t length);
void try_open(const uint8_t *bytes, size_t length);
void try_lookup(const uint8_t *bytes, size_t length, uint32_t m);
/* Whether there is a row at the place; at any floor, as a reader does not use it. */
int try_row(const uint8_t *bytes, size_t length, struct selection l, size_t place);
/* Writes a file into a buffer of this length, and reads it back. */
void try_write(uint32_t floor, const uint32_t *numbers, size_t count, size_t length);

/* Catalogues whole and damaged; readers over any bytes; files written for lawful and faulty requests. */
void catalogues(unsigned rounds);
void readers(unsigned rounds);
void writers(unsigned rounds);

/* Prints what was compared and how often; 1 where anything differed. */
int report(void);

#endif
