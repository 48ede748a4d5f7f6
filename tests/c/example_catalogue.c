/* Prints the rows that a catalogue has for degree 3, with the sum of resolution gaps if it has it: example_catalogue FILE. */
#include <stdio.h>
#include "fenyurka.h"

int main(int argc, char **argv)
{
    static uint8_t file[1 << 20];
    FILE *stream = argc == 2 ? fopen(argv[1], "rb") : NULL;
    if (stream == NULL)
        return 2;
    size_t file_length = fread(file, 1, sizeof file, stream);
    fclose(stream);

    FenyurkaBody body = fenyurka_lookup(file, file_length, 3);
    if (body.refusal != 0) {
        printf("refused %u\n", body.refusal);
        return 1;
    }
    FenyurkaList list = {.degree = 3, .top = body.top, .gaps = body.gaps};
    FenyurkaRow row = fenyurka_row(list, file + body.offset, body.length, 0);
    while (row.count > 0) {
        for (size_t i = 0; i < row.count; i++)
            printf("%u%c", row.numbers[i], i + 1 < row.count ? ' ' : '\n');
        row = fenyurka_row(list, file + body.offset, body.length, row.next);
    }
    return 0;
}
