/* Which catalogues, readers and writers are compared: whole, damaged, made by hand; asked for rightly and wrongly; of both kinds of row
   and mixed. */
#include "calls.h"

#include <string.h>

static uint8_t file[MOST_BYTES];

static void put(size_t place, uint32_t number, int width)
{
    for (int i = width; i-- > 0; number >>= 8)
        file[place + i] = (uint8_t)number;
}

/* A row into the file: of the list while it has rows, or of numbers that the form allows, which for the sum of gaps is any byte. */
static size_t put_row(size_t place, struct selection l, const uint32_t *row)
{
    uint32_t size = (uint32_t)1 << l.degree;
    put(place, row ? row[0] - size : below(size), 2);
    put(place + 2, row ? row[1] : below(size), 2);
    put(place + 4, row ? row[2] : below(size), 2);
    for (uint32_t i = LEAST_TOP; i < row_width(l); i++)
        file[place + 3 + i] = (uint8_t)(row ? row[i] : i > l.top ? draw() : below(l.degree + 1));
    return place + row_bytes(l);
}

/* The second number of an entry, of either kind. */
static uint32_t draw_marked(void)
{
    return LEAST_TOP + below(6) + GAPS_MARK * below(2);
}

/* A catalogue of the degrees in `set` (bit m for degree m), up to `most` rows each, or of whole lists of the T and kind that the number
   `whole` says; its length. */
static size_t make_catalogue(uint32_t set, uint32_t most, uint32_t whole)
{
    size_t n = (size_t)__builtin_popcount(set), place = 1 + 8 * n, entry = 1;
    file[0] = (uint8_t)n;
    for (uint32_t m = LEAST_DEGREE; m <= MOST_DEGREE; m++) {
        if (!(set >> m & 1))
            continue;
        size_t all;
        struct selection l = selection_of(m, whole ? whole : draw_marked(), 0);
        uint32_t rows = below(most + 1), real = below(2);
        const uint32_t *list = reference_list(l, &all);
        if (whole)
            rows = (uint32_t)all;
        put(entry, m, 1);
        put(entry + 1, marked_top(l), 1);
        put(entry + 2, rows, 2);
        put(entry + 4, (uint32_t)place, 4);
        entry += 8;
        for (uint32_t r = 0; r < rows; r++)
            place = put_row(place, l, (whole || real) && r < all ? list + r * row_width(l) : NULL);
    }
    return place;
}

/* Opens, looks every degree up, and reads each body from its first row to the end, then as if it were of some other kind. */
static void read_all(size_t length)
{
    try_open(file, length);
    for (uint32_t m = 0; m <= 18; m++) {
        struct reference_body body;
        size_t place = 0;
        try_lookup(file, length, m);
        if (reference_lookup(file, length, m, &body) != 0)
            continue;
        struct selection l = {m, body.top, 0, body.gaps};
        const uint8_t *bytes = file + body.offset;
        uint32_t size = (uint32_t)body.length;
        while (try_row(bytes, size, l, place))
            place += body.row_size;
        for (int i = 0; i < 4; i++) {
            l.degree = near(m);
            l.gaps = below(2) ? body.gaps : draw_gaps();
            try_row(bytes, size - below(size + 1), l, below(size + 3));
        }
    }
    for (int i = 0; i < EXTREMES; i++)
        try_lookup(file, length, extremes[i]);
}

static void damage_once(size_t length)
{
    size_t place = below(2) ? below((uint32_t)length) : below(1 + 8 * (uint32_t)file[0]) % length;
    uint8_t kept = file[place], kind = (uint8_t)below(4);
    file[place] = kind == 0 ? kept + 1 : kind == 1 ? kept - 1 : kind == 2 ? kept ^ (uint8_t)(1u << below(8)) : (uint8_t)draw();
    try_open(file, length);
    try_lookup(file, length, LEAST_DEGREE + below(15));
    file[place] = kept;
    if (below(4) == 0) {
        size_t other = below(8) ? below((uint32_t)length + 1) : length + 1 + below(20);
        try_open(file, other);
        try_lookup(file, other, LEAST_DEGREE + below(15));
    }
}

/* The 41 bytes of document 01, and those with the sum of gaps: each byte with each value, each length. */
static void small_catalogue(uint32_t marked)
{
    size_t length = make_catalogue(1u << 3, 0, marked);
    read_all(length);
    for (size_t place = 0; place < length; place++)
        for (int change = 1; change < 256; change++) {
            file[place] ^= (uint8_t)change;
            try_open(file, length);
            try_lookup(file, length, 3);
            try_lookup(file, length, file[1]);
            file[place] ^= (uint8_t)change;
        }
    for (size_t other = 0; other <= length + 2; other++) {
        try_open(file, other);
        try_lookup(file, other, 3);
    }
}

void catalogues(unsigned rounds)
{
    const uint32_t every = 0x1FFFC;
    for (uint32_t top = LEAST_TOP; top <= MOST_TOP; top++)
        for (uint32_t marked = top; marked <= top + GAPS_MARK; marked += GAPS_MARK) {
            if (top == 4)
                small_catalogue(marked);
            size_t length = make_catalogue(every, 0, marked);
            read_all(length);
            for (int i = 0; i < 100; i++)
                damage_once(length);
        }
    for (unsigned i = 0; i < rounds; i++) {
        size_t length = make_catalogue((below(3) ? draw() & draw() : draw()) & every, below(3) ? 4 : 12, 0);
        read_all(length);
        for (int k = 0; k < 30; k++)
            damage_once(length);
        for (size_t k = 0; k < length; k++)
            file[k] = below(3) ? (uint8_t)below(26) : (uint8_t)draw();
        try_open(file, length);
        try_lookup(file, length, below(20));
    }
}

/* Readers made by hand over any bytes, with any numbers. */
void readers(unsigned rounds)
{
    for (unsigned i = 0; i < rounds; i++) {
        size_t length = below(100), place = below(4) ? below(110) : (size_t)0 - below(20);
        struct selection l = {below(20), below(11), 0, draw_gaps()};
        for (size_t k = 0; k < length; k++)
            file[k] = (uint8_t)draw();
        if (below(2))
            place = place / row_bytes(l) * row_bytes(l);
        if (below(10) == 0)
            l.degree = extremes[below(EXTREMES)];
        if (below(10) == 0)
            l.top = extremes[below(EXTREMES)];
        try_row(file, length, l, place);
    }
}

/* ---- writing */

enum { MOST_NUMBERS = 1200 };

/* How long the buffer is: as the file, one byte less, one more, empty, or anything. */
enum room { EXACT, ONE_SHORT, ONE_LONG, EMPTY, ANY, ROOMS };

static void write_into(enum room room, uint32_t floor, const uint32_t *numbers, size_t count)
{
    const uint8_t *written;
    size_t length = 1 + below(200);
    reference_write(floor, numbers, count, MOST_BYTES, &written, &length);
    const size_t lengths[ROOMS] = {length, length - 1, length + 1, 0, below(2 * (uint32_t)length + 20)};
    try_write(floor, numbers, count, lengths[room]);
}

static void write_into_all(uint32_t floor, const uint32_t *numbers, size_t count)
{
    for (int room = 0; room < ROOMS; room++)
        write_into(room, floor, numbers, count);
}

/* Each degree alone, with every T of both kinds, at every floor up to degree 8; small files with a buffer of every length. */
static void write_singly(void)
{
    for (uint32_t m = LEAST_DEGREE; m <= 10; m++)
        for (uint32_t kind = 0; kind < 12; kind++)
            for (uint32_t floor = 0; floor <= MOST_FLOOR + 1; floor += m <= 8 ? 1 : 11) {
                const uint32_t numbers[2] = {m, LEAST_TOP + kind / 2 + kind % 2 * GAPS_MARK};
                write_into_all(floor, numbers, 2);
                for (size_t length = 0; m <= 5 && length <= 160; length++)
                    try_write(floor, numbers, 2, length);
            }
}

/* Every second number up to 40 and some beyond, whose low bytes are lawful or not, alone and as the first and the last of two. */
static void write_tops(void)
{
    static const uint32_t beyond[] = {255, 256, 259, 275, 280, 512 + 3, 65535, 65536 + 19, 0x7FFFFFFF, 0x80000003, 0x80000013, 0xFFFFFFF3,
                                      0xFFFFFFFF};
    enum { UP_TO = 40, BEYOND = sizeof beyond / sizeof beyond[0] };
    for (uint32_t i = 0; i <= UP_TO + BEYOND; i++)
        for (uint32_t k = 0; k < 3; k++) {
            uint32_t numbers[4] = {3, draw_marked(), 5, draw_marked()};
            numbers[k == 1 ? 3 : 1] = i <= UP_TO ? i : beyond[i - UP_TO - 1];
            write_into_all(draw_floor(), numbers, k == 0 ? 2 : 4);
            write_into_all(0, numbers, k == 0 ? 2 : 4);
        }
}

/* All requests of up to `most` numbers out of n, at floor 0 and at another. */
static void write_all_of(const uint32_t *values, size_t n, size_t most)
{
    size_t requests = 1;
    for (size_t count = 0; count <= most; count++, requests *= n)
        for (size_t k = 0; k < requests; k++) {
            uint32_t numbers[8];
            for (size_t i = 0, rest = k; i < count; i++, rest /= n)
                numbers[i] = values[rest % n];
            write_into(below(ROOMS), 0, numbers, count);
            write_into(below(ROOMS), draw_floor(), numbers, count);
        }
}

/* A lawful request for some of the degrees from `least` to `most`; how many numbers it has. */
static size_t draw_request(uint32_t *numbers, uint32_t least, uint32_t most)
{
    size_t count = 0;
    uint32_t set = below(3) ? draw() : draw() & draw();
    for (uint32_t m = least; m <= most; m++)
        if (set >> m & 1) {
            numbers[count++] = m;
            numbers[count++] = draw_marked();
        }
    return count;
}

/* A number that is seldom a lawful degree or T, or one that is so only in its low bytes; no degree that takes long. */
static uint32_t draw_wrong(void)
{
    uint32_t wrong = extremes[below(EXTREMES)];
    if (below(3) == 0)
        return draw_marked() + (below(2) ? 256 : 65536) * (1 + below(200));
    return 10 < wrong && wrong <= MOST_DEGREE ? 0 : wrong;
}

/* Makes one mistake in a request that has at least one entry; how many numbers it has now. */
static size_t spoil(uint32_t *numbers, size_t count)
{
    size_t entries = count / 2, one = 2 * below((uint32_t)entries), other = 2 * below((uint32_t)entries), more;
    uint32_t kept = numbers[one];
    switch (below(7)) {
    case 0:
        numbers[one] = draw_wrong();
        return count;
    case 1:
        numbers[one + 1] = draw_wrong();
        return count;
    case 2: /* the last T is missing */
        return 2 * entries - 1;
    case 3: /* a further entry without its T, perhaps of a wrong degree */
        numbers[2 * entries] = below(2) ? draw_wrong() : numbers[0];
        return 2 * entries + 1;
    case 4: /* a degree twice */
        numbers[one] = numbers[other];
        return count;
    case 5: /* degrees change places */
        numbers[one] = numbers[other];
        numbers[other] = kept;
        return count;
    default: /* too many entries, at times so many that their count is lawful in its low byte */
        more = 2 * (MOST_ENTRIES + 1 + below(below(2) ? 300 : 5));
        for (size_t i = count; i < more; i++)
            numbers[i] = i % 2 ? draw_marked() : LEAST_DEGREE + below(15);
        return more < count ? count : more;
    }
}

/* Files of high degrees: few, as each search takes long. */
static void write_high(void)
{
    uint32_t numbers[2 * MOST_ENTRIES];
    for (uint32_t m = 11; m <= MOST_DEGREE; m++)
        for (uint32_t top = LEAST_TOP; top <= MOST_TOP; top += m < 13 ? 1 : 5)
            for (uint32_t floor = 0; floor <= MOST_FLOOR; floor += MOST_FLOOR) {
                numbers[0] = m;
                numbers[1] = top + ((floor == 0) ^ top % 2) * GAPS_MARK;
                write_into(below(2) ? EXACT : ONE_LONG, floor, numbers, 2);
                write_into(below(2) ? ONE_SHORT : EMPTY, floor, numbers, 2);
            }
    for (int i = 0; i < 40; i++)
        write_into(i % ROOMS, below(MOST_FLOOR + 1), numbers, draw_request(numbers, LEAST_DEGREE, i < 36 ? 13 : MOST_DEGREE));
    for (int kind = 0; kind < 4; kind++) {
        uint32_t floor = kind == 0 ? below(MOST_FLOOR + 1) : kind == 3 ? MOST_FLOOR : 0;
        for (uint32_t i = 0; i < MOST_ENTRIES; i++) {
            numbers[2 * i] = LEAST_DEGREE + i;
            numbers[2 * i + 1] = kind == 0 ? draw_marked() : kind == 1 ? LEAST_TOP : kind == 2 ? MOST_TOP + GAPS_MARK : MOST_TOP;
        }
        write_into(kind == 0 ? ONE_LONG : EXACT, floor, numbers, 2 * MOST_ENTRIES);
        write_into(ONE_SHORT, floor, numbers, 2 * MOST_ENTRIES);
    }
}

void writers(unsigned rounds)
{
    static const uint32_t twelve[12] = {0, 1, 2, 3, 4, 8, 9, 17, 19, 24, 258, 0xFFFFFFFF}, six[6] = {1, 2, 3, 5, 6, 9};
    static uint32_t numbers[MOST_NUMBERS];
    write_singly();
    write_tops();
    write_all_of(twelve, 12, 4);
    write_all_of(six, 6, 6);
    for (unsigned i = 0; i < rounds; i++) {
        size_t count = draw_request(numbers, LEAST_DEGREE, below(10) ? 8 : 10);
        write_into_all(below(MOST_FLOOR + 1), numbers, count);
        for (uint32_t faults = 1 + below(3); faults > 0 && count > 1; faults--)
            count = spoil(numbers, count);
        write_into(below(ROOMS), draw_floor(), numbers, count);
    }
    write_high();
}
