/* Says what the library does, one line a fact, for pictures/draw.py: signatures, levels, answers of axes, the check and the walk step by step, and the
 * prepared table. Every number after the trees themselves comes from a call of the library. pictures/run builds and runs it. */
#include "../include/icebittern.h"

typedef uint16_t u16;
typedef uint64_t u64;

int printf(const char *format, ...);

static const u16 ten[] = {
    1, 10, 11, 0,  2, 5, 7, 1,  3, 3, 6, 2,  4, 1, 5, 3,  5, 2, 6, 3,
    7, 4, 7, 2,  6, 9, 11, 1,  8, 8, 11, 7,  9, 6, 10, 8,  10, 7, 11, 8,
};
static const u16 five[] = {1, 5, 6, 0,  1, 1, 3, 1,  1, 4, 6, 1,  1, 2, 5, 3,  1, 3, 6, 3};
static const u16 pair[] = {1, 2, 3, 0,  1, 1, 3, 1};
static const u16 tart[] = {1, 4, 5, 0,  2, 2, 4, 1,  3, 1, 4, 2,  4, 3, 5, 1};
static const u16 tart_twig[] = {2, 3, 4, 0,  3, 1, 3, 1,  4, 2, 4, 1};
static const u16 chain[] = {1, 5, 6, 0,  1, 4, 6, 1,  1, 3, 6, 2,  1, 2, 6, 3,  1, 1, 6, 4};
static const u16 chain_twig[] = {1, 3, 4, 0,  1, 2, 4, 1,  2, 1, 4, 2};

/* A tree: each entry with its four numbers, its level and the length of its block. */
static void say_tree(const char *name, const u16 *sig, int n)
{
    u64 level[2], place[3];
    for (u16 i = 1; i <= n; i++) {
        ib_level(sig, 4 * (size_t)n, i, level);
        ib_block_place(sig, 4 * (size_t)n, i, place);
        printf("entry %s %d %d %d %d %d %d %d\n", name, i, sig[4 * i - 4], sig[4 * i - 3], sig[4 * i - 2], sig[4 * i - 1], (int)level[0], (int)place[1] / 4);
    }
}

static void say_axis(u16 axis, u16 context)
{
    u16 room[10];
    u64 out[2];
    ib_axis(ten, 40, &context, 1, axis, 0, 0, room, 10, out);
    printf("axis %d %d", axis, context);
    for (u64 i = 0; i < out[0]; i++)
        printf(" %d", room[i]);
    printf("\n");
}

/* The check of Ten in turns of one step: the state after each. */
static void say_check(void)
{
    u16 state[3] = {1, 0, 0};
    u64 out[3];
    printf("check %d %d %d\n", state[0], state[1], state[2]);
    while (ib_check_turn(IB_DATA, ten, 40, state, 1, out) == 0 && out[1] == 1)
        printf("check %d %d %d\n", state[0], state[1], state[2]);
}

/* The trainees' fourth table: a node's bit wherever its name passes. */
static void names_alone(const u16 *sig, int n, const u16 *twig, int m, u16 *table)
{
    for (int t = 0; t < n; t++)
        for (int q = 0; q < m; q++)
            if (twig[4 * q] == 0 || twig[4 * q] == sig[4 * t])
                table[2 * t] |= (u16)(1u << q);
}

/* A question prepared, by our call or by names alone, then walked in turns of one step: the walk after each. */
static void say_walk(const char *name, const u16 *sig, int n, const u16 *twig, int m, int by_names)
{
    u16 table[20], state[19], next[1] = {(u16)n};
    u64 out[3];
    ib_prepare_start((u64)n, table, 20, out);
    if (by_names)
        names_alone(sig, n, twig, m, table);
    else
        ib_prepare_turn(sig, 4 * (size_t)n, twig, 4 * (size_t)m, table, 20, next, (u64)n, out);
    for (int t = 0; t < n; t++)
        printf("table %s %d %d %d\n", name, t + 1, table[2 * t], table[2 * t + 1]);
    ib_walk_fresh(state);
    do {
        printf("walk %s %d %d %d", name, state[16], state[17], state[18]);
        for (int q = 0; q < m; q++)
            printf(" %d", state[q]);
        printf("\n");
        ib_walk_turn(sig, 4 * (size_t)n, twig, 4 * (size_t)m, table, 20, state, 1, out);
    } while (out[1] == 1);
}

int main(void)
{
    static const u16 contexts[] = {3, 2, 2, 7, 6, 5, 9, 3, 6, 3, 7};
    say_tree("ten", ten, 10);
    say_tree("five", five, 5);
    say_tree("pair", pair, 2);
    say_tree("tart", tart, 4);
    say_tree("tart_twig", tart_twig, 3);
    say_tree("chain", chain, 5);
    for (u16 axis = 0; axis <= 10; axis++)
        say_axis(axis, contexts[axis]);
    say_check();
    say_walk("five", five, 5, pair, 2, 0);
    say_walk("whole", chain, 5, chain_twig, 3, 0);
    say_walk("names", chain, 5, chain_twig, 3, 1);
    return 0;
}
