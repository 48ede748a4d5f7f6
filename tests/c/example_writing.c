/* Writes a catalogue of degree 3 up to dimension 4 and degree 10 up to dimension 8 with the sum of resolution gaps, and reads the best
   row of degree 10 back. */
#include <stdio.h>
#include "fenyurka.h"

int main(void)
{
    static const uint32_t entries[] = {3, 4, 10, 8 + 16}; /* degree, T, degree, T + 16: rows with the sum of gaps */
    static uint8_t file[FENYURKA_LONGEST_FILE];
    FenyurkaFile written = fenyurka_write(0, entries, 4, file, sizeof file); /* floor 0: pairs of every step */
    if (written.refusal != 0) {
        printf("refused %u\n", written.refusal);
        return 1;
    }
    printf("the file has %zu bytes\n", written.length);

    FenyurkaBody body = fenyurka_lookup(file, written.length, 10);
    printf("degree 10 has %u rows of %zu bytes, from byte %zu on\n", body.rows, body.row_size, body.offset);
    FenyurkaList list = {.degree = 10, .top = body.top, .gaps = body.gaps};
    FenyurkaRow row = fenyurka_row(list, file + body.offset, body.length, 0);
    printf("the first: p %u q %u step %u t(8) %u gaps %u\n", row.numbers[0], row.numbers[1], row.numbers[2], row.numbers[8],
           row.numbers[9]);
    return 0;
}
