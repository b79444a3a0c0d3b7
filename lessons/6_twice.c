/* Fault 3: the answers of siblings are merged without dropping ranks that are met twice. */
#include "lesson.h"

/* The trainee's union: the later siblings of each context, one list behind the other, then sorted. */
static u64 trainee_following(const u16 *sig, const u16 *contexts, u64 count, u16 *to)
{
    u64 found = 0;
    for (u64 k = 0; k < count; k++) {
        u16 parent = sig[4 * (contexts[k] - 1) + 3];
        for (u16 j = sig[4 * (contexts[k] - 1) + 2]; parent && j < sig[4 * (parent - 1) + 2]; j = sig[4 * (j - 1) + 2])
            to[found++] = j;
    }
    for (u64 a = 1; a < found; a++)
        for (u64 b = a; b && to[b - 1] > to[b]; b--) {
            u16 held = to[b];
            to[b] = to[b - 1];
            to[b - 1] = held;
        }
    return found;
}

void lesson_twice(void)
{
    static const u16 menu[] = {1, 4, 5, 0, 2, 1, 3, 1, 3, 2, 4, 1, 4, 3, 5, 1}, contexts[] = {2, 3};
    u16 room[16], number;
    u64 out[2];
    say_menu("menu 1(2,3,4):", menu, 4);
    printf("question: the later siblings of 2 and of 3\n");
    say_ranks("  trainee:", room, trainee_following(menu, contexts, 2, room));
    ib_axis(menu, 16, contexts, 2, IB_FOLLOWING_SIBLING, 0, 0, room, 16, out);
    say_ranks("  ours:", room, out[0]);
    printf("the same with room for 2 ranks\n");
    printf("  trainee: writes %d ranks\n", (int)trainee_following(menu, contexts, 2, room));
    number = ib_axis(menu, 16, contexts, 2, IB_FOLLOWING_SIBLING, 0, 0, room, 2, out);
    printf("  ours: number %d, writes %d ranks\n", number, (int)out[0]);
}
