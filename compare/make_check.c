/* Turns of the check, cut at random, on whole and on damaged signatures, from fresh and from damaged states. */
#include "make.h"

static Tree tree;

static void fresh_or_any(Case *c, u64 n)
{
    c->state[0] = 1;
    c->state[1] = c->state[2] = 0;
    if (one_in(4)) {
        c->state[0] = (u16)between(1, n + 1);
        c->state[1] = (u16)below_number(c->state[0]);
        c->state[2] = (u16)below_number(c->state[0]);
    }
    if (one_in(10)) {
        u64 which = below_number(3);
        c->state[which] = nearby(c->state[which], n);
    }
}

void make_check(Case *c)
{
    int twig = one_in(3);
    random_tree(&tree, twig ? random_twig_size() : random_size(), 3);
    if (one_in(twig ? 2 : 10))
        twig_names(&tree);
    c->call = CHECK_TURN;
    c->number[0] = random_kind(twig);
    c->room.len = 0;
    list_of_tree(&c->sig, &tree);
    if (one_in(2))
        damage_numbers(&c->sig);
    u64 n = c->sig.len / 4;
    fresh_or_any(c, n);
    for (int turns = (int)between(1, 8); turns > 0; turns--) {
        c->number[1] = random_budget(2 * n + 2);
        run_case(c);
        if (came.out[0] != 2 && !one_in(4))
            break;
        if (one_in(30)) {
            u64 which = below_number(3);
            c->state[which] = nearby(c->state[which], n);
        }
    }
}
