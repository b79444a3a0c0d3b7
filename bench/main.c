/* Runs each row by both sides in turn and says the least time of each; bench/run makes tables of it. With the arguments `count ROW SIDE` it
 * runs one row once by one side, for a tool that counts instructions (bench/counts); with `rows` it says how many rows there are. */
#include "bench.h"

int printf(const char *format, ...);
struct timespec { long seconds, nanoseconds; };
int clock_gettime(int clock, struct timespec *now);

enum { MONOTONIC = 1, SLICE = 150000, SPENT = 250000000 };

static u64 now(void)
{
    struct timespec time;
    clock_gettime(MONOTONIC, &time);
    return (u64)time.seconds * 1000000000u + (u64)time.nanoseconds;
}

/* Its own function, and never inlined, so that a counting tool can be told to look at it alone. */
__attribute__((noinline)) void measured(const Row *row, const Calls *with, Left *left)
{
    row->work(with, row->argument, left);
}

/* Times `repeats` runs of a row by one side, and keeps the least. */
static void time_side(const Row *row, const Calls *with, u64 repeats, u64 *least)
{
    Left left = {0, 0, 0};
    u64 begin = now();
    for (u64 i = 0; i < repeats; i++)
        measured(row, with, &left);
    u64 took = (now() - begin) * 1024 / repeats;
    *least = took < *least ? took : *least;
}

static u64 repeats_for(const Row *row, const Calls *with)
{
    u64 least = ~(u64)0;
    time_side(row, with, 1, &least);
    time_side(row, with, 1, &least);
    return least / 1024 < SLICE ? SLICE / (least / 1024 + 1) + 1 : 1;
}

/* 1024ths of a nanosecond for one run of the row, by the library and by plain C: slices of both by turns, the least of each. */
static void measure(const Row *row, u64 least[2])
{
    u64 ours = repeats_for(row, &library), theirs = repeats_for(row, &plain), begin = now();
    least[0] = least[1] = ~(u64)0;
    for (int round = 0; round < 5 || (round < 2000 && now() - begin < SPENT); round++) {
        time_side(row, &library, ours, &least[0]);
        time_side(row, &plain, theirs, &least[1]);
    }
}

/* 1 where both sides leave the same. Sets the units of a run. */
static int agree(const Row *row, u64 *units)
{
    Left ours = {1, 0, 0}, theirs = {1, 0, 0};
    measured(row, &library, &ours);
    measured(row, &plain, &theirs);
    *units = ours.units ? ours.units : 1;
    return ours.sum == theirs.sum && ours.units == theirs.units;
}

/* One line: the row's name, n, units and their name, and the nanoseconds of a whole run by either side. 0 where the two sides differ. */
static int say_row(const Row *row, int size)
{
    u64 units, least[2];
    if (!agree(row, &units)) {
        printf("%s: the two sides differ\n", row->name);
        return 0;
    }
    measure(row, least);
    printf("%s\t%d\t%lu\t%s\t%.3f\t%.3f\n", row->name, size, (unsigned long)units, row->unit, (double)least[0] / 1024, (double)least[1] / 1024);
    return 1;
}

/* Every row at the greatest size, and some at smaller ones. */
static int say_all(void)
{
    for (int size = MOST_DATA; size >= 512; size /= 2) {
        make_inputs(size);
        for (int i = 0; i < row_count; i++)
            if ((size == MOST_DATA || rows[i].grows) && !say_row(&rows[i], size))
                return 1;
    }
    return 0;
}

/* Rows are counted from 0. */
static int number_of(const char *text)
{
    int x = 0;
    for (; *text >= '0' && *text <= '9'; text++)
        x = 10 * x + (*text - '0');
    return x;
}

int main(int count, char **arguments)
{
    if (count == 1)
        return say_all();
    if (count == 2)
        return printf("%d\n", row_count) < 0;
    int row = count == 4 ? number_of(arguments[2]) : row_count;
    if (row >= row_count)
        return 2;
    Left left = {0, 0, 0};
    make_inputs(MOST_DATA);
    rows[row].work(&plain, rows[row].argument, &left);
    measured(&rows[row], arguments[3][0] == 'p' ? &plain : &library, &left);
    printf("%s\n", rows[row].name);
    return 0;
}
