/* How much stack each call takes: it runs on a stack of its own that was filled with a pattern, and the bytes that no longer hold it
   are counted. Prints the most for each call, over the degrees 2 to 16 at the floors 0 and 32, without the sum of gaps and with it,
   beside what the header says; exit status 1 where it is more. */
#define _XOPEN_SOURCE 700
#include "fenyurka.h"

#include <stdio.h>
#include <string.h>
#include <ucontext.h>

/* STATED and STATED_OF_WRITE are the header's bytes. */
enum { STACK = 1 << 20, PATTERN = 0xA5, STATED = 24576, STATED_OF_WRITE = 139264 };
enum { MOST_ROWS = 3000, TOP = 8, MANY = 100000 };

static unsigned char stack[STACK] __attribute__((aligned(64)));
static ucontext_t here, there;

/* Runs the call on the patterned stack; how many bytes it changed. */
static size_t taken_by(void (*call)(void))
{
    size_t untouched = 0;
    memset(stack, PATTERN, sizeof stack);
    getcontext(&there);
    there.uc_stack.ss_sp = stack;
    there.uc_stack.ss_size = sizeof stack;
    there.uc_link = &here;
    makecontext(&there, call, 0);
    swapcontext(&here, &there);
    while (untouched < STACK && stack[untouched] == PATTERN)
        untouched++;
    return STACK - untouched;
}

static FenyurkaList list = {.top = TOP};
static uint32_t rows[MOST_ROWS * FENYURKA_LONGEST_ROW], room[1 << 16];
static size_t count;
/* Document 01's catalogue of degree 3, T = 4. */
static const uint8_t file[41] = {
    1, 3, 4, 0, 4, 0, 0, 0, 9, 0, 3, 0, 4, 0, 2, 1, 1, 0, 3, 0, 7, 0, 5, 1, 1, 0, 5, 0, 5, 0, 3, 1, 1, 0, 5, 0, 7, 0, 4, 1, 1,
};
static uint8_t buffer[FENYURKA_LONGEST_FILE];
static volatile uint32_t sink;

static void nothing(void)
{
}

static void first_page(void)
{
    count = fenyurka_first_page(list, rows, sizeof rows / sizeof rows[0]).count;
}

static void page_after(void)
{
    const uint32_t width = TOP + 1 + list.gaps, *middle = rows + count / 2 * width;
    sink = fenyurka_page_after(list, middle[0], middle[1], room, 50 * width).more;
}

static void judge(void)
{
    sink = fenyurka_judge(list.degree, list.floor, rows[0], rows[1]).step;
}

static void quotients(void)
{
    sink = fenyurka_quotients(list.degree, rows[0], rows[1]).quotient_degree;
}

static void t_value(void)
{
    sink = fenyurka_t_value(list.degree, rows[0], rows[1], TOP).t;
}

static void count_t_value(void)
{
    sink = fenyurka_count_t_value(list.degree, rows[0], rows[1], TOP).t;
}

static void sum_of_gaps(void)
{
    sink = fenyurka_sum_of_gaps(list.degree, rows[0], rows[1]).delta;
}

static void points(void)
{
    sink = (uint32_t)fenyurka_points(list.degree, list.floor, rows[0], rows[1], 0, room, sizeof room / sizeof room[0]).count;
}

static void open(void)
{
    sink = fenyurka_open(file, sizeof file).entries;
}

static void lookup(void)
{
    sink = fenyurka_lookup(file, sizeof file, 3).rows;
}

static void row(void)
{
    sink = fenyurka_row((FenyurkaList){.degree = 3, .top = 4, .gaps = list.gaps}, file + 9, sizeof file - 9, 0).numbers[0];
}

/* A file of all degrees up to this one. */
static void write_file(void)
{
    static uint32_t entries[30];
    size_t n = 0;
    for (uint32_t m = 2; m <= list.degree; m++) {
        entries[n++] = m;
        entries[n++] = TOP + 16 * list.gaps;
    }
    sink = (uint32_t)fenyurka_write(list.floor, entries, n, buffer, sizeof buffer).length;
}

/* More entries than a stack would hold, all of them lawful but the last. */
static void write_many(void)
{
    static uint32_t entries[MANY];
    for (size_t i = 0; i < MANY; i++)
        entries[i] = 3;
    entries[MANY - 1] = 0;
    sink = fenyurka_write(list.floor, entries, MANY, buffer, sizeof buffer).refusal;
}

/* first_page first: the others take their pairs from its rows. */
static const struct {
    const char *name;
    void (*call)(void);
    size_t stated;
} calls[] = {
    {"fenyurka_first_page", first_page, STATED},
    {"fenyurka_page_after", page_after, STATED},
    {"fenyurka_judge", judge, STATED},
    {"fenyurka_quotients", quotients, STATED},
    {"fenyurka_t_value", t_value, STATED},
    {"fenyurka_count_t_value", count_t_value, STATED},
    {"fenyurka_sum_of_gaps", sum_of_gaps, STATED},
    {"fenyurka_points", points, STATED},
    {"fenyurka_open", open, STATED},
    {"fenyurka_lookup", lookup, STATED},
    {"fenyurka_row", row, STATED},
    {"fenyurka_write", write_file, STATED_OF_WRITE},
    {"fenyurka_write, refused", write_many, STATED_OF_WRITE},
};
enum { CALLS = sizeof calls / sizeof calls[0] };

int main(void)
{
    size_t most[CALLS] = {0}, none = taken_by(nothing);
    int above = 0;
    for (list.gaps = 0; list.gaps <= 1; list.gaps++)
        for (list.floor = 0; list.floor <= 32; list.floor += 32)
            for (list.degree = 2; list.degree <= 16; list.degree++)
                for (int i = 0; i < CALLS; i++) {
                    size_t taken = taken_by(calls[i].call) - none;
                    most[i] = taken > most[i] ? taken : most[i];
                }
    for (int i = 0; i < CALLS; i++) {
        printf("%-23s %6zu bytes of stack, the header says less than %zu\n", calls[i].name, most[i], calls[i].stated);
        above |= most[i] >= calls[i].stated;
    }
    return above;
}
