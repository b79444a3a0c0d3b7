/* Cases of level, block and axes. */
#include "make.h"

static Tree tree;

static u64 random_signature(Case *c)
{
    random_tree(&tree, random_size(), 3);
    list_of_tree(&c->sig, &tree);
    c->room.len = 0;
    if (one_in(4))
        damage_numbers(&c->sig);
    return (u64)tree.size;
}

static u16 random_rank(u64 n)
{
    return one_in(8) ? nearby(0, n) : (u16)between(1, n);
}

void make_level(Case *c)
{
    c->call = LEVEL;
    c->number[0] = random_rank(random_signature(c));
    run_case(c);
}

void make_block_place(Case *c)
{
    c->call = BLOCK_PLACE;
    c->number[0] = random_rank(random_signature(c));
    run_case(c);
}

/* Contexts: none, some, or all ranks, strictly ascending; a few where the tree is large. */
static void random_contexts(List *to, u64 n)
{
    u64 thin = n > 40 ? n / 3 : between(1, 4);
    to->len = 0;
    if (one_in(12))
        return;
    for (u64 i = 1; i <= n; i++)
        if (one_in(thin))
            to->at[to->len++] = (u16)i;
    if (to->len > 0 && one_in(10)) {
        u64 at = below_number(to->len);
        to->at[at] = nearby(to->at[at], n);
    }
}

void make_axis(Case *c)
{
    u64 n = random_signature(c);
    c->call = AXIS;
    random_contexts(&c->more, n);
    c->number[0] = one_in(30) ? between(11, 65535) : below_number(11);
    c->number[1] = one_in(2) ? 0 : between(1, 4);
    c->number[2] = one_in(2) ? 0 : one_in(10) ? between(1, 65535) : between(1, 4);
    fit_room(c, n);
    run_case(c);
}
