/* Fault 2: fa < i is taken as proof that fa is an open element. */
#include "lesson.h"

/* The trainee's two ways to ask what is inside an element, which must say the same on a tree. */
static u64 trainee_children(const u16 *sig, u16 n, u16 rank, u16 *to)
{
    u64 count = 0;
    for (u16 j = 1; j <= n; j++)
        if (sig[4 * (j - 1) + 3] == rank)
            to[count++] = j;
    return count;
}

static u64 trainee_below(const u16 *sig, u16 rank, u16 *to)
{
    u64 count = 0;
    for (u16 j = rank + 1; j < sig[4 * (rank - 1) + 2]; j++)
        to[count++] = j;
    return count;
}

/* The trainee's check: every number in its range, every post once, and each parent before its child. */
static int trainee_accepts(const u16 *sig, u16 n)
{
    u64 posts = 0;
    for (u16 i = 1; i <= n; i++) {
        const u16 *entry = sig + 4 * (i - 1);
        if (entry[0] == 0 || entry[1] < 1 || entry[1] > n || entry[2] <= i || entry[2] > n + 1)
            return 0;
        if (entry[3] >= i || (i > 1 && entry[3] == 0))
            return 0;
        posts |= (u64)1 << entry[1];
    }
    return posts == ((u64)2 << n) - 2;
}

void lesson_open(void)
{
    static const u16 menu[] = {1, 3, 4, 0, 2, 1, 3, 1, 3, 2, 4, 1, 4, 4, 5, 2};
    u16 room[4], state[3] = {1, 0, 0}, number;
    u64 out[3];
    say_menu("menu, the fa of entry 4 is 2, and 2 has closed before 3 opened:", menu, 4);
    printf("  trainee: %s\n", trainee_accepts(menu, 4) ? "accepted" : "refused");
    say_ranks("  trainee, children of 2 by their fa:", room, trainee_children(menu, 4, 2, room));
    say_ranks("  trainee, all below 2 by its ff:", room, trainee_below(menu, 2, room));
    number = ib_check_turn(IB_DATA, menu, 16, state, 100, out);
    printf("  ours: refused %d at entry %d after %d steps\n", number, (int)out[2], (int)out[1]);
}
