/* Fault 4: preparing with the bits of the twig nodes alone, so that half matches break the limit of steps between two answers. */
#include "lesson.h"

/* The trainee's table: the bit of a node is set where the name passes, whatever the node's children ask for. */
static void trainee_prepare(const u16 *menu, int n, const u16 *twig, int m)
{
    for (int t = 0; t < n; t++) {
        table[2 * t] = table[2 * t + 1] = 0;
        for (int q = 0; q < m; q++)
            if (twig[4 * q] == 0 || twig[4 * q] == menu[4 * t])
                table[2 * t] |= (u16)(1u << q);
    }
}

/* A chain of elements named 1, the last one named otherwise. */
static void make_chain(u16 *to, int size, u16 last_name)
{
    for (int i = 0; i < size; i++) {
        to[4 * i] = i == size - 1 ? last_name : 1;
        to[4 * i + 1] = (u16)(size - i);
        to[4 * i + 2] = (u16)(size + 1);
        to[4 * i + 3] = (u16)i;
    }
}

/* The steps of the walk over the table as it is, to its end: neither menu has an answer. */
static int walk_steps(const u16 *menu, int n, const u16 *twig, int m)
{
    u16 state[19];
    u64 out[3];
    ib_walk_fresh(state);
    ib_walk_turn(menu, 4 * (size_t)n, twig, 4 * (size_t)m, table, 128, state, 1000000000, out);
    return out[0] == IB_END ? (int)out[1] : -1;
}

static void both(int n, int m)
{
    u16 menu[4 * 64], twig[64];
    make_chain(menu, n, 1);
    make_chain(twig, m, 2);
    printf("a chain of %d elements named 1, and the twig of %d nodes 1(1(..(2))): the limit is %d steps\n", n, m, 2 * m * n + 1);
    trainee_prepare(menu, n, twig, m);
    printf("  trainee's table: %d steps\n", walk_steps(menu, n, twig, m));
    prepare(menu, n, twig, m);
    printf("  our table: %d steps\n", walk_steps(menu, n, twig, m));
}

void lesson_half(void)
{
    both(5, 3);
    both(24, 8);
}
