/* The header's functions in plain C made fast: catalogues. Nothing here is proved; tests/c compares it with the reference. A file is
   measured by one walk for each list that counts, then each list is filled by another and put down in bytes. */
#include "fast.h"
#include "fenyurka.h"

enum { MOST = 16, MOST_FLOOR = 32, MOST_ENTRIES = 15, MOST_ROWS = 2882, MARK = 16 };

/* Whether an entry's second number says rows with the sum of gaps; T in it; the bytes of a row. */
static uint32_t gaps_in(uint32_t number)
{
    return number >= MARK;
}

static uint32_t top_in(uint32_t number)
{
    return number - gaps_in(number) * MARK;
}

static uint32_t row_size(uint32_t top, uint32_t gaps)
{
    return top + 4 + gaps;
}

static uint32_t pair_at(const uint8_t *bytes)
{
    return (uint32_t)bytes[0] << 8 | bytes[1];
}

static int rows_lawful(const uint8_t *row, uint32_t rows, uint32_t size, uint32_t m, uint32_t top)
{
    uint32_t wrong = 0;
    for (; rows > 0; rows--, row += size) {
        wrong |= (pair_at(row) | pair_at(row + 2) | pair_at(row + 4)) >> m;
        for (uint32_t s = 3; s <= top; s++)
            wrong |= row[3 + s] > m;
    }
    return wrong == 0;
}

FenyurkaCatalogue fenyurka_open(const uint8_t *file, size_t length)
{
    FenyurkaCatalogue closed = {.refusal = 9};
    if (length == 0 || file[0] > 15 || length < 1 + 8u * file[0])
        return closed;
    size_t end = 1 + 8u * file[0];
    uint32_t last = 1;
    for (uint32_t i = 0; i < file[0]; i++) {
        const uint8_t *e = file + 1 + 8 * i;
        uint32_t top = top_in(e[1]), rows = pair_at(e + 2), size = row_size(top, gaps_in(e[1]));
        if (e[0] <= last || e[0] > MOST || top - 3 > 5 || (pair_at(e + 4) << 16 | pair_at(e + 6)) != end)
            return closed;
        if (length - end < rows * size || !rows_lawful(file + end, rows, size, e[0], top))
            return closed;
        end += rows * size;
        last = e[0];
    }
    if (end != length)
        return closed;
    return (FenyurkaCatalogue){.entries = file[0]};
}

FenyurkaBody fenyurka_lookup(const uint8_t *file, size_t length, uint32_t degree)
{
    if (degree - 2 > MOST - 2)
        return (FenyurkaBody){.refusal = 1};
    FenyurkaCatalogue catalogue = fenyurka_open(file, length);
    if (catalogue.refusal != 0)
        return (FenyurkaBody){.refusal = catalogue.refusal};
    for (const uint8_t *e = file + 1; catalogue.entries > 0; catalogue.entries--, e += 8)
        if (e[0] == degree) {
            FenyurkaBody body = {.top = top_in(e[1]), .gaps = gaps_in(e[1]), .rows = pair_at(e + 2)};
            body.row_size = row_size(body.top, body.gaps);
            body.offset = pair_at(e + 4) << 16 | pair_at(e + 6);
            body.length = body.rows * body.row_size;
            return body;
        }
    return (FenyurkaBody){.refusal = 10};
}

FenyurkaRow fenyurka_row(FenyurkaList list, const uint8_t *body, size_t length, size_t place)
{
    FenyurkaRow row = {.next = place};
    uint32_t gaps = list.gaps != 0, size = row_size(list.top, gaps);
    if (list.degree - 2 > MOST - 2 || list.top - 3 > 5 || place % size != 0 || place > length || length - place < size)
        return row;
    body += place;
    row.count = list.top + 1 + gaps;
    row.next = place + size;
    row.numbers[0] = (1u << list.degree) + pair_at(body);
    row.numbers[1] = pair_at(body + 2);
    row.numbers[2] = pair_at(body + 4);
    for (uint32_t i = 3; i < row.count; i++)
        row.numbers[i] = body[3 + i];
    return row;
}

/* ---- writing */

static uint32_t request_refusal(uint32_t floor, const uint32_t *entries, size_t length)
{
    uint32_t wrong_top = length % 2, falling = 0, last = 0;
    for (size_t i = 0; i < length; i += 2) {
        if (entries[i] - 2 > MOST - 2)
            return 1;
        wrong_top |= i + 1 < length && top_in(entries[i + 1]) - 3 > 5;
        falling |= entries[i] <= last;
        last = entries[i];
    }
    return wrong_top ? 2 : floor > MOST_FLOOR ? 12 : falling ? 13 : 0;
}

static uint8_t *put_pair(uint8_t *bytes, uint32_t number)
{
    bytes[0] = (uint8_t)(number >> 8);
    bytes[1] = (uint8_t)number;
    return bytes + 2;
}

static uint8_t *put_rows(uint8_t *bytes, const uint32_t *row, uint32_t rows, uint32_t m, uint32_t width)
{
    for (; rows > 0; rows--, row += width, bytes += width - 3) {
        bytes = put_pair(bytes, row[0] ^ 1u << m);
        bytes = put_pair(bytes, row[1]);
        bytes = put_pair(bytes, row[2]);
        for (uint32_t i = 3; i < width; i++)
            bytes[i - 3] = (uint8_t)row[i];
    }
    return bytes;
}

FenyurkaFile fenyurka_write(uint32_t floor, const uint32_t *entries, size_t entries_length, uint8_t *file, size_t file_length)
{
    uint32_t rows[MOST_ROWS * FENYURKA_LONGEST_ROW], counts[MOST_ENTRIES], refusal = request_refusal(floor, entries, entries_length);
    if (refusal != 0)
        return (FenyurkaFile){.refusal = refusal};
    size_t n = entries_length / 2, length = 1 + 8 * n;
    for (size_t i = 0; i < n; i++) {
        counts[i] = count_pairs(entries[2 * i], floor);
        length += counts[i] * row_size(top_in(entries[2 * i + 1]), gaps_in(entries[2 * i + 1]));
    }
    if (length > file_length)
        return (FenyurkaFile){.refusal = 14};
    uint8_t *entry = file + 1, *body = entry + 8 * n;
    file[0] = (uint8_t)n;
    for (size_t i = 0; i < n; i++) {
        uint32_t number = entries[2 * i + 1], offset = (uint32_t)(body - file);
        FenyurkaList list = {.degree = entries[2 * i], .top = top_in(number), .floor = floor, .gaps = gaps_in(number)};
        *entry++ = (uint8_t)list.degree;
        *entry++ = (uint8_t)number;
        entry = put_pair(entry, counts[i]);
        entry = put_pair(entry, offset >> 16);
        entry = put_pair(entry, offset);
        fenyurka_first_page(list, rows, sizeof rows / sizeof rows[0]);
        body = put_rows(body, rows, counts[i], list.degree, list.top + 1 + list.gaps);
    }
    return (FenyurkaFile){.length = length};
}
