/* Cases of preparing and walking, on whole and damaged signatures, twigs, tables and states. */
#include "make.h"

static Tree data, twig;
enum { NODE = 16, CANDIDATE = 17, PHASE = 18 };

static u64 random_question(Case *c)
{
    random_tree(&data, random_size(), 2);
    random_tree(&twig, random_twig_size(), 2);
    twig_names(&twig);
    list_of_tree(&c->sig, &data);
    list_of_tree(&c->twig, &twig);
    c->more.len = 0;
    if (one_in(4))
        damage_numbers(&c->sig);
    if (one_in(12))
        damage_numbers(&c->twig);
    return (u64)data.size;
}

static size_t random_table_len(u64 n)
{
    return 2 * n + (one_in(3) ? between(1, 5) : 0) - (one_in(12) ? between(1, n < 4 ? 2 : 5) : 0);
}

static u64 random_count(u64 n)
{
    switch (below_number(20)) {
    case 0: return 0;
    case 1: return between(MOST_DATA, MOST_DATA + 2);
    case 2: return any_number();
    case 3: return 65536 + n;
    case 4: return n + between(1, 3);
    default: return n;
    }
}

static void damage_table(Case *c)
{
    for (u64 times = between(1, 4); times > 0 && c->room.len > 0; times--)
        c->room.at[below_number(c->room.len)] = (u16)any_number();
}

static void prepare(Case *c, u64 n)
{
    c->call = PREPARE_START;
    c->number[0] = random_count(n);
    random_room(c, random_table_len(n));
    run_case(c);
    c->call = PREPARE_TURN;
    c->state[0] = (u16)(one_in(10) ? nearby((u16)n, n) : n);
    for (int turns = (int)between(1, 6); turns > 0; turns--) {
        c->number[0] = random_budget(n);
        run_case(c);
        if (came.out[0] != 2)
            break;
        if (one_in(20))
            damage_table(c);
        if (one_in(40))
            c->state[0] = nearby(c->state[0], n);
    }
}

/* Over a table that nobody prepared a walk can go on for ages: so a budget that nobody could wait for is given only where the walk stops before. */
static u64 walk_budget(Case *c, u64 usual)
{
    const u64 patience = 100000;
    u64 budget = random_budget(usual);
    c->number[0] = patience;
    return budget > patience && second_of(c).out[0] == 2 ? patience : budget;
}

static void walk_turns(Case *c, u64 n, int turns)
{
    c->call = WALK_TURN;
    for (; turns > 0; turns--) {
        c->number[0] = walk_budget(c, 3 * n);
        run_case(c);
        if (came.out[0] == 3 || (came.out[0] == 1 && !one_in(4)))
            break;
        if (one_in(40))
            damage_table(c);
        if (one_in(40)) {
            u64 which = below_number(MOST_STATE);
            c->state[which] = nearby(c->state[which], n);
        }
    }
}

void make_loose(Case *c)
{
    u64 n = random_question(c);
    prepare(c, n);
    c->call = WALK_FRESH;
    for (int i = 0; i < MOST_STATE; i++)
        c->state[i] = (u16)any_number();
    run_case(c);
    walk_turns(c, n, (int)between(1, 8));
}

/* A state that is mostly within its ranges and that no walk need reach, over any table. */
void make_walk_state(Case *c)
{
    u64 n = random_question(c);
    int m = twig.size <= MOST_TWIG ? twig.size : MOST_TWIG;
    int phase = (int)below_number(3), k = phase == 1 ? m : phase == 2 ? 1 : (int)between(1, (u64)m);
    u64 image = 0;
    for (int i = 0; i < MOST_STATE; i++)
        c->state[i] = 0;
    for (int q = 1; q <= k; q++) {
        const Node *parent = twig.ranked[q]->parent;
        u64 low = parent ? c->state[parent->pre - 1] + 1u : 1;
        image = low <= n ? between(low, n) : n + 1;
        if (q < k || phase == 1)
            c->state[q - 1] = (u16)image;
    }
    c->state[NODE] = (u16)k;
    c->state[CANDIDATE] = (u16)(phase == 2 ? n + 1 : phase == 0 && one_in(6) ? n + 1 : image);
    c->state[PHASE] = (u16)phase;
    if (one_in(3)) {
        u64 which = one_in(2) ? below_number((u64)m) : between((u64)m, MOST_STATE - 1);
        c->state[which] = nearby(c->state[which], n);
    }
    c->call = WALK_TURN;
    random_room(c, random_table_len(n));
    walk_turns(c, n, (int)between(1, 4));
}
