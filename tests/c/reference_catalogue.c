/* Documents 01 and 02 in plain C, slow and literal: the catalogue, its form, a lookup, the reader and the writer. */
#include "reference.h"

static uint32_t number_at(const uint8_t *bytes, size_t place, int width)
{
    uint32_t number = 0;
    for (int i = 0; i < width; i++)
        number = number * 256 + bytes[place + i];
    return number;
}

/* Whether the row has the form, which asks nothing of the sum of gaps. */
static int row_form(const uint8_t *row, uint32_t m, uint32_t top)
{
    uint32_t size = (uint32_t)1 << m;
    for (int part = 0; part < 3; part++)
        if (number_at(row, 2 * part, 2) >= size)
            return 0;
    for (uint32_t s = LEAST_TOP; s <= top; s++)
        if (row[6 + s - LEAST_TOP] > m)
            return 0;
    return 1;
}

uint32_t reference_open(const uint8_t *file, size_t length, uint32_t *entries)
{
    if (length < 1 || file[0] > 15 || length < 1 + 8 * (size_t)file[0])
        return 9;
    size_t end = 1 + 8 * (size_t)file[0];
    uint32_t last = 0;
    for (uint32_t i = 0; i < file[0]; i++) {
        const uint8_t *entry = file + 1 + 8 * i;
        struct selection l = selection_of(entry[0], entry[1], 0);
        uint32_t rows = number_at(entry, 2, 2), offset = number_at(entry, 4, 4);
        if (!lawful_degree(l.degree) || l.degree <= last || !lawful_top(l.top) || offset != end)
            return 9;
        size_t size = row_bytes(l);
        if (length - end < rows * size)
            return 9;
        for (uint32_t r = 0; r < rows; r++)
            if (!row_form(file + end + r * size, l.degree, l.top))
                return 9;
        end += rows * size;
        last = l.degree;
    }
    if (end != length)
        return 9;
    *entries = file[0];
    return 0;
}

uint32_t reference_lookup(const uint8_t *file, size_t length, uint32_t m, struct reference_body *body)
{
    uint32_t entries;
    if (!lawful_degree(m))
        return 1;
    if (reference_open(file, length, &entries) != 0)
        return 9;
    for (uint32_t i = 0; i < entries; i++) {
        const uint8_t *entry = file + 1 + 8 * i;
        if (entry[0] == m) {
            struct selection l = selection_of(m, entry[1], 0);
            body->top = l.top;
            body->gaps = l.gaps;
            body->rows = number_at(entry, 2, 2);
            body->row_size = 2 + 2 + 2 + (l.top - LEAST_TOP + 1) + l.gaps;
            body->offset = number_at(entry, 4, 4);
            body->length = body->rows * body->row_size;
            return 0;
        }
    }
    return 10;
}

int reference_row(const uint8_t *body, size_t length, struct selection l, size_t place, uint32_t *row, size_t *next)
{
    if (!lawful_degree(l.degree) || !lawful_top(l.top))
        return 0;
    size_t size = row_bytes(l);
    if (place % size != 0 || place > length || length - place < size)
        return 0;
    row[0] = ((uint32_t)1 << l.degree) + number_at(body, place, 2);
    row[1] = number_at(body, place + 2, 2);
    row[2] = number_at(body, place + 4, 2);
    for (uint32_t i = LEAST_TOP; i < row_width(l); i++)
        row[i] = body[place + 6 + i - LEAST_TOP];
    *next = place + size;
    return 1;
}

/* ---- writing */

static uint8_t written[1 << 17];
static size_t written_length;

/* Puts a number behind what is written, the highest byte first. */
static void append(uint32_t number, int width)
{
    for (int i = width - 1; i >= 0; i--)
        written[written_length++] = (uint8_t)(number >> 8 * i);
}

static void append_body(struct selection l)
{
    size_t rows;
    const uint32_t *row = reference_list(l, &rows);
    for (size_t r = 0; r < rows; r++, row += row_width(l)) {
        append(row[0] - ((uint32_t)1 << l.degree), 2);
        append(row[1], 2);
        append(row[2], 2);
        for (uint32_t i = LEAST_TOP; i < row_width(l); i++)
            append(row[i], 1);
    }
}

uint32_t reference_write(uint32_t floor, const uint32_t *numbers, size_t count, size_t room, const uint8_t **file, size_t *length)
{
    for (size_t i = 0; i < count; i += 2)
        if (!lawful_degree(numbers[i]))
            return 1;
    for (size_t i = 0; i < count; i += 2)
        if (i + 1 == count || !lawful_top(selection_of(numbers[i], numbers[i + 1], floor).top))
            return 2;
    if (!lawful_floor(floor))
        return 12;
    for (size_t i = 2; i < count; i += 2)
        if (numbers[i - 2] >= numbers[i])
            return 13;
    size_t offset = 1 + 8 * (count / 2);
    written_length = 0;
    append((uint32_t)count / 2, 1);
    for (size_t i = 0; i < count; i += 2) {
        struct selection l = selection_of(numbers[i], numbers[i + 1], floor);
        size_t rows;
        reference_list(l, &rows);
        append(l.degree, 1);
        append(marked_top(l), 1);
        append((uint32_t)rows, 2);
        append((uint32_t)offset, 4);
        offset += rows * row_bytes(l);
    }
    for (size_t i = 0; i < count; i += 2)
        append_body(selection_of(numbers[i], numbers[i + 1], floor));
    if (written_length > room)
        return 14;
    *file = written;
    *length = written_length;
    return 0;
}
