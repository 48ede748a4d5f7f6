/* Prints the ranked list of degree 10 up to dimension 5, with the sum of resolution gaps, page by page. */
#include <stdio.h>
#include "fenyurka.h"

enum { DEGREE = 10, TOP = 5, WIDTH = TOP + 2, LENGTH = 20 * WIDTH }; /* a row is TOP + 2 numbers; a page is 20 rows */

int main(void)
{
    /* .floor = 32 leaves out steps below 32. Without .gaps a row is TOP + 1 numbers, as it then has no sum of gaps. */
    FenyurkaList list = {.degree = DEGREE, .top = TOP, .floor = 0, .gaps = 1};
    uint32_t rows[LENGTH];
    FenyurkaPage page = fenyurka_first_page(list, rows, LENGTH);
    while (page.refusal == 0) {
        for (size_t i = 0; i < page.count; i++) {
            const uint32_t *row = rows + i * WIDTH;
            printf("p %u q %u step %u t(5) %u gaps %u\n", row[0], row[1], row[2], row[5], row[6]);
        }
        if (!page.more)
            return 0;
        const uint32_t *last = rows + (page.count - 1) * WIDTH;
        page = fenyurka_page_after(list, last[0], last[1], rows, LENGTH);
    }
    printf("refused %u\n", page.refusal);
    return 1;
}
