/* Cases of the ordered question in turns: on whole and damaged signatures, twigs, rooms and states, and cut anywhere on the way to its verdict, which is
 * held against every answer found by brute force. */
#include "make.h"

static Tree data, twig;
enum { NODE = 0, ENTRY = 1, STAGE = 2, MOST_ANSWERS = 300 };

/* Entries that a list has, or that the limits let it have; one at least, so that a state and a room can be made for it. */
static u64 entries_of(const List *list, u64 most)
{
    u64 count = list->len / 4;
    return count < 1 ? 1 : count < most ? count : most;
}

/* At times the greatest question of all, whose room is the longest that is lent. */
static void random_question(Case *c, u64 chances)
{
    int greatest = one_in(300);
    random_tree(&data, greatest ? MOST_DATA : random_size(), 2);
    random_tree(&twig, greatest ? MOST_TWIG : random_twig_size(), one_in(3) ? 3 : 2);
    twig_names(&twig);
    list_of_tree(&c->sig, &data);
    list_of_tree(&c->twig, &twig);
    c->more.len = 0;
    if (one_in(chances < 4 ? chances : 4))
        damage_numbers(&c->sig);
    if (one_in(chances))
        damage_numbers(&c->twig);
}

static void begin_fresh(Case *c, u64 m, u64 n)
{
    c->call = FITS_TURN;
    c->state[NODE] = (u16)m;
    c->state[ENTRY] = (u16)n;
    c->state[STAGE] = 0;
}

static void damage_state(Case *c, u64 m, u64 n)
{
    u64 which = below_number(3);
    c->state[which] = nearby(c->state[which], which == NODE ? m : n);
}

/* Fresh, or any state, mostly within its ranges; told ones too. */
static void random_state(Case *c, u64 m, u64 n, u64 chances)
{
    begin_fresh(c, m, n);
    if (one_in(3)) {
        u64 stage = one_in(2) ? 0 : between(1, 3);
        c->state[NODE] = (u16)(stage == 1 && !one_in(4) ? 1 : between(1, m));
        c->state[ENTRY] = (u16)(stage == 2 && !one_in(4) ? 1 : between(1, n));
        c->state[STAGE] = (u16)stage;
    }
    if (one_in(chances))
        damage_state(c, m, n);
}

/* A room with as many numbers as are needed, or more; or with one, some or all of them missing. A state that nobody reached reads what it finds there:
 * mostly numbers that could have been written. */
static void lend_room(Case *c, u64 need, u64 n, u64 chances)
{
    u64 len = need + (one_in(3) ? between(1, 9) : 0);
    if (one_in(chances))
        len = one_in(2) ? need - 1 : below_number(need);
    random_room(c, len);
    if (one_in(2))
        for (u64 i = 0; i < len; i++)
            c->room.at[i] = (u16)below_number(n + 3);
}

static void damage_room(Case *c, u64 n)
{
    for (u64 times = between(1, 4); times > 0 && c->room.len > 0; times--) {
        u64 at = below_number(c->room.len);
        c->room.at[at] = nearby(c->room.at[at], n);
    }
}

/* Any budget, or just the steps that are left to be taken, or one less. */
static u64 budget_for(Case *c, u64 usual)
{
    if (!one_in(6))
        return random_budget(usual);
    c->number[0] = ~(u64)0;
    return second_of(c).out[1] - (u64)one_in(2);
}

/* A question that was begun fresh has told. Many nodes are tried only where there are few elements. */
static void hold_verdict(const Case *c, u64 steps)
{
    static u16 answers[MOST_ANSWERS * MOST_TWIG];
    u64 m = c->twig.len / 4, n = c->sig.len / 4, q = c->state[NODE], t = c->state[ENTRY];
    int yes = came.out[0] == 0;
    if (steps != (yes ? m * n - t + 1 : (m - q + 1) * n))
        give_up("the steps to a verdict are not those from its beginning to its place");
    if (n > (m > 5 ? 9 : m > 3 ? 11 : 30))
        return;
    if (whole_fault(0, c->sig.at, c->sig.len, &data).number || whole_fault(1, c->twig.at, c->twig.len, &twig).number)
        return;
    long count = all_answers(1, &data, &twig, answers, MOST_ANSWERS);
    if (yes != (count != 0))
        give_up("the verdict on an ordered question is not what brute force finds");
    if (count > 0 && t != answers[(u64)(count - 1) * m])
        give_up("at yes the entry is not the greatest that an answer of brute force begins with");
}

void make_fits(Case *c)
{
    u64 chances = one_in(6) ? 2 : 12, steps = 0;
    random_question(c, chances);
    u64 m = entries_of(&c->twig, MOST_TWIG), n = entries_of(&c->sig, MOST_DATA);
    random_state(c, m, n, chances);
    lend_room(c, m * n, n, chances);
    int untouched = c->state[NODE] == m && c->state[ENTRY] == n && c->state[STAGE] == 0;
    for (u64 turns = between(1, 8); turns > 0; turns--) {
        c->number[0] = budget_for(c, m * n);
        run_case(c);
        steps += came.out[1];
        if (untouched && came.out[0] < 2)
            hold_verdict(c, steps);
        if (came.out[0] != 2 && !one_in(4))
            break;
        if (one_in(20)) {
            damage_room(c, n);
            untouched = 0;
        }
        if (one_in(40)) {
            damage_state(c, m, n);
            untouched = 0;
        }
    }
}

/* From the beginning to the verdict, turn after turn. */
void whole_fits(Case *c)
{
    small_question(c, one_in(2) ? 1 : 2);
    u64 m = c->twig.len / 4, n = c->sig.len / 4, steps = 0;
    if (n > MOST_DATA || m > MOST_TWIG)
        return;
    begin_fresh(c, m, n);
    random_room(c, m * n + below_number(3));
    do {
        c->number[0] = random_budget(n);
        run_case(c);
        steps += came.out[1];
    } while (came.out[0] == 2);
    hold_verdict(c, steps);
}
