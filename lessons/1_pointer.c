/* Habit 1: the pointers are trusted, because our own loader wrote them. */
#include "lesson.h"

/* The trainee's list of all below an entry: from the next entry to the one before ff, whatever ff says. */
static u64 trainee_below(const u16 *sig, u16 rank, u16 *to)
{
    u64 count = 0;
    for (u16 j = rank + 1; j < sig[4 * (rank - 1) + 2]; j++)
        to[count++] = j;
    return count;
}

/* The trainee's climb to the root. The lesson cuts it off after `most` steps; the trainee did not. */
static int trainee_level(const u16 *sig, u16 rank, int most)
{
    int level = 0;
    for (u16 up = sig[4 * (rank - 1) + 3]; up && level < most; up = sig[4 * (up - 1) + 3])
        level++;
    return level;
}

void lesson_pointer(void)
{
    static const u16 far_end[] = {7, 2, 9, 0, 5, 1, 3, 1}, own_parent[] = {7, 2, 3, 0, 5, 1, 3, 2}, twig[] = {7, 2, 3, 0, 0, 1, 3, 1};
    static const u16 root[] = {1};
    u16 room[16], state[19], number;
    u64 out[3];

    say_menu("menu, name,post,ff,fa:", far_end, 2);
    printf("question: what is below entry 1?\n");
    say_ranks("  trainee:", room, trainee_below(far_end, 1, room));
    number = ib_axis(far_end, 8, root, 1, IB_DESCENDANT, 0, 0, room, 16, out);
    say_refusal("  ours, axis:", number, out[1]);
    prepare(far_end, 2, twig, 2);
    ib_walk_fresh(state);
    number = ib_walk_turn(far_end, 8, twig, 8, table, 128, state, 100, out);
    say_refusal("  ours, walk in turns, unchecked:", number, out[2]);

    say_menu("menu, name,post,ff,fa:", own_parent, 2);
    printf("question: how deep is entry 2?\n");
    printf("  trainee: still climbing after %d steps\n", trainee_level(own_parent, 2, 1000));
    number = ib_level(own_parent, 8, 2, out);
    say_refusal("  ours, level:", number, out[1]);
}
