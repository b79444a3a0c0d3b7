/* Cases of the ordered question, and the whole of both questions against every answer found by brute force. */
#include "make.h"

static Tree data, twig;
enum { MOST_ANSWERS = 4000 };
static u16 wanted[MOST_ANSWERS * MOST_TWIG];

/* Sizes that brute force can do: many nodes only where there are few elements. */
void small_question(Case *c, int names)
{
    int m = random_twig_size();
    u64 r = below_number(100);
    int n = r == 0 ? MOST_DATA + 1 : r < 5 && m <= 3 ? (int)between(10, 30) : (int)between(1, m > 5 ? 9 : 11);
    random_tree(&data, n, names);
    random_tree(&twig, m, names);
    twig_names(&twig);
    list_of_tree(&c->sig, &data);
    list_of_tree(&c->twig, &twig);
    c->more.len = 0;
}

void make_ordered(Case *c)
{
    small_question(c, 2);
    u64 n = (u64)data.size;
    c->call = ORDERED_NEXT;
    c->more.len = (size_t)twig.size;
    for (size_t k = 0; k < c->more.len; k++)
        c->more.at[k] = (u16)(one_in(3) ? 0 : k > 0 && one_in(2) ? c->more.at[k - 1] + 1u : between(0, n));
    for (size_t k = 0; k < c->more.len; k++)
        c->more.at[k] = c->more.at[k] > n && !one_in(10) ? (u16)n : c->more.at[k];
    if (one_in(12))
        c->more.len = one_in(2) ? c->more.len - 1 : c->more.len + 1;
    if (one_in(8))
        damage_numbers(&c->sig);
    if (one_in(8))
        damage_numbers(&c->twig);
    fit_room(c, MOST_TWIG);
    for (int times = (int)between(1, 4); times > 0; times--) {
        run_case(c);
        if (came.number != 0 || came.out[0] == 0)
            break;
        for (size_t k = 0; k < c->more.len; k++)
            c->more.at[k] = c->room.at[k];
    }
}

/* From zeros on, call after call. */
void whole_ordered(Case *c)
{
    small_question(c, one_in(2) ? 1 : 2);
    if (data.size > MOST_DATA || twig.size > MOST_TWIG)
        return;
    size_t m = (size_t)twig.size;
    long count = all_answers(1, &data, &twig, wanted, 300);
    c->call = ORDERED_NEXT;
    c->more.len = m;
    for (size_t k = 0; k < m; k++)
        c->more.at[k] = 0;
    for (long at = 0; at <= count; at++) {
        random_room(c, m + below_number(3));
        run_case(c);
        if (came.out[0] != (at < count ? m : 0))
            give_up("the ordered answers are not as many as brute force finds");
        for (size_t k = 0; k < m && at < count; k++) {
            c->more.at[k] = c->room.at[k];
            if (c->room.at[k] != wanted[at * (long)m + (long)k])
                give_up("an ordered answer is not the one that brute force finds");
        }
    }
}

/* Preparing from its start call to its end, in turns; how many steps they took. */
static u64 prepare_whole(Case *c, u64 n)
{
    u64 steps = 0;
    c->call = PREPARE_START;
    c->number[0] = n;
    random_room(c, 2 * n + below_number(3));
    run_case(c);
    c->state[0] = (u16)came.out[0];
    c->call = PREPARE_TURN;
    do {
        c->number[0] = random_budget(n);
        run_case(c);
        steps += came.out[1];
    } while (came.out[0] == 2);
    return steps;
}

/* The walk from fresh to its end; a turn stops at each answer. */
void whole_loose(Case *c)
{
    small_question(c, one_in(2) ? 1 : 2);
    if (data.size > MOST_DATA || twig.size > MOST_TWIG)
        return;
    long n = data.size, m = twig.size, at = 0, count = all_answers(0, &data, &twig, wanted, 300);
    u64 since = 0;
    if (count < 0)
        return;
    if (prepare_whole(c, (u64)n) != (u64)n)
        give_up("preparing did not take n steps");
    c->call = WALK_FRESH;
    run_case(c);
    c->call = WALK_TURN;
    do {
        c->number[0] = random_budget((u64)n);
        run_case(c);
        since += came.out[1];
        if (since > 2 * (u64)m * (u64)n + 1)
            give_up("more than 2*m*n+1 steps lie between two answers");
        if (came.out[0] != 0)
            continue;
        since = 0;
        for (long k = 0; k < m; k++)
            if (at >= count || c->state[k] != wanted[at * m + k])
                give_up("a loose answer is not the one that brute force finds");
        at++;
    } while (came.out[0] != 1);
    if (at != count)
        give_up("the loose answers are not as many as brute force finds");
}
