/* What the files of plain C share beside the header. */
#ifndef FAST_H
#define FAST_H

#include <stdint.h>

/* How many pairs a degree of 2 to 16 has that are accepted at a floor of 0 to 32, by one walk down the tree. */
uint32_t count_pairs(uint32_t degree, uint32_t floor);

#endif
