/* The rows of the table: each a piece of work that either side does. */
#include "bench.h"

enum { ALL_STEPS = 1 << 30, SHORT_TURN = 64 };

static u16 room[4 * MOST_DATA], table[2 * MOST_DATA], ends[MOST_TWIG * MOST_DATA];
static u8 byte_room[10 * MOST_DATA];

/* The question of the listing, 1(2,3), and one with a single answer, which the walk seeks over the whole menu. */
static const u16 question[] = {1, 3, 4, 0, 2, 1, 3, 1, 3, 2, 4, 1};
static const u16 rare[] = {0, 2, 3, 0, 999, 1, 3, 1};

/* Adds numbers to the sum, each with its place, where both sides are compared. */
static void add(Left *left, const void *from, size_t size)
{
    const u8 *bytes = from;
    for (size_t i = 0; left->comparing && i < size; i++)
        left->sum = left->sum * 1000003 + bytes[i] + 1;
}

static void check_of(const Calls *with, const u16 *sig, int most, Left *left)
{
    u16 state[3] = {1, 0, 0}, number;
    u64 out[3];
    do {
        number = with->check_turn(IB_DATA, sig, 4 * (size_t)inputs.n, state, (u64)most, out);
        left->units += out[1];
        add(left, state, sizeof state);
        add(left, out, sizeof out);
    } while (number == 0 && out[0] == IB_BUDGET);
}

static void check(const Calls *with, int most, Left *left)
{
    check_of(with, inputs.menu, most, left);
}

static void check_even(const Calls *with, int most, Left *left)
{
    check_of(with, inputs.even, most, left);
}

static void prepare_with(const Calls *with, const u16 *twig, size_t len, int most, Left *left)
{
    u16 state[1], number;
    u64 fresh[1], out[3];
    with->prepare_start((u64)inputs.n, table, 2 * MOST_DATA, fresh);
    state[0] = (u16)fresh[0];
    do {
        number = with->prepare_turn(inputs.menu, 4 * (size_t)inputs.n, twig, len, table, 2 * MOST_DATA, state, (u64)most, out);
        left->units += out[1];
        add(left, out, sizeof out);
    } while (number == 0 && out[0] == IB_BUDGET);
    add(left, table, 4 * (size_t)inputs.n);
}

static void prepare(const Calls *with, int most, Left *left)
{
    prepare_with(with, question, sizeof question / 2, most, left);
}

static void prepare_wide(const Calls *with, int most, Left *left)
{
    prepare_with(with, inputs.wide, 4 * MOST_TWIG, most, left);
}

static void walk_with(const Calls *with, const u16 *twig, size_t len, int most, Left *left, int count_answers)
{
    u16 state[19];
    u64 out[3];
    with->walk_fresh(state);
    do {
        u16 number = with->walk_turn(inputs.menu, 4 * (size_t)inputs.n, twig, len, table, 2 * MOST_DATA, state, (u64)most, out);
        left->units += count_answers ? out[0] == IB_ANSWER : out[1];
        add(left, &number, sizeof number);
        add(left, state, sizeof state);
        add(left, out, sizeof out);
    } while (out[0] == IB_BUDGET || out[0] == IB_ANSWER);
}

/* Preparing is no part of these rows: the plain side fills the table once for both. */
static void prepared(const u16 *twig, size_t len)
{
    static const u16 *last;
    static int last_size;
    u16 state[1] = {(u16)inputs.n};
    u64 out[3];
    if (last == twig && last_size == inputs.n)
        return;
    last = twig;
    last_size = inputs.n;
    plain.prepare_start((u64)inputs.n, table, 2 * MOST_DATA, out);
    plain.prepare_turn(inputs.menu, 4 * (size_t)inputs.n, twig, len, table, 2 * MOST_DATA, state, (u64)inputs.n, out);
}

static void walk_rare(const Calls *with, int most, Left *left)
{
    prepared(rare, sizeof rare / 2);
    walk_with(with, rare, sizeof rare / 2, most, left, 0);
}

/* The whole listing: prepared, then a turn for each answer. */
static void listing(const Calls *with, int most, Left *left)
{
    Left preparing = *left;
    prepare(with, ALL_STEPS, &preparing);
    left->sum = preparing.sum;
    walk_with(with, question, sizeof question / 2, most, left, 1);
}

static void one_call(Left *left, u16 number, const void *out, size_t out_size, const void *from, size_t size)
{
    left->units++;
    add(left, &number, sizeof number);
    add(left, out, out_size);
    add(left, from, size);
}

static void axis_of(const Calls *with, const u16 *sig, const u16 *contexts, size_t count, int axis, u16 position, Left *left)
{
    u64 out[2];
    u16 number = with->axis(sig, 4 * (size_t)inputs.n, contexts, count, (u16)axis, 0, position, room, MOST_DATA, out);
    one_call(left, number, out, sizeof out, room, 2 * (size_t)inputs.n);
}

static void axis_one(const Calls *with, int axis, Left *left)
{
    u16 middle[1] = {(u16)(inputs.n / 2)};
    axis_of(with, inputs.menu, middle, 1, axis, 0, left);
}

static void axis_all(const Calls *with, int axis, Left *left)
{
    axis_of(with, inputs.menu, inputs.everyone, (size_t)inputs.n, axis, 0, left);
}

static void axis_second(const Calls *with, int axis, Left *left)
{
    axis_of(with, inputs.menu, inputs.everyone, (size_t)inputs.n, axis, 2, left);
}

static void axis_hundredth(const Calls *with, int axis, Left *left)
{
    axis_of(with, inputs.menu, inputs.everyone, (size_t)inputs.n, axis, 100, left);
}

static void axis_second_broad(const Calls *with, int axis, Left *left)
{
    axis_of(with, inputs.broad, inputs.everyone, (size_t)inputs.n, axis, 2, left);
}

static void ordered_chain(const Calls *with, int unused, Left *left)
{
    u16 tuple[MOST_TWIG] = {0}, answer[MOST_TWIG];
    u64 out[2];
    (void)unused;
    u16 number = with->ordered_next(inputs.chain, 4 * (size_t)inputs.n, inputs.deep, 4 * MOST_TWIG, tuple, MOST_TWIG, answer, MOST_TWIG, out);
    one_call(left, number, out, sizeof out, answer, 2 * out[0]);
}

static void ordered_menu(const Calls *with, int unused, Left *left)
{
    u16 tuple[3] = {0}, answer[3];
    u64 out[2];
    (void)unused;
    u16 number = with->ordered_next(inputs.menu, 4 * (size_t)inputs.n, question, sizeof question / 2, tuple, 3, answer, 3, out);
    one_call(left, number, out, sizeof out, answer, 2 * out[0]);
}

static void fits_with(const Calls *with, const u16 *sig, const u16 *twig, size_t len, int most, Left *left)
{
    u16 state[3] = {(u16)(len / 4), (u16)inputs.n, IB_ASKING}, number;
    u64 out[3];
    do {
        number = with->fits_turn(sig, 4 * (size_t)inputs.n, twig, len, ends, MOST_TWIG * MOST_DATA, state, (u64)most, out);
        left->units += out[1];
        add(left, &number, sizeof number);
        add(left, state, sizeof state);
        add(left, out, sizeof out);
    } while (out[0] == IB_BUDGET);
    add(left, ends, sizeof ends);
}

/* The no comes with the last step of all. */
static void fits_chain(const Calls *with, int most, Left *left)
{
    fits_with(with, inputs.chain, inputs.late, 4 * MOST_TWIG, most, left);
}

static void fits_menu(const Calls *with, int most, Left *left)
{
    fits_with(with, inputs.menu, question, sizeof question / 2, most, left);
}

static void tags_in(const Calls *with, int unused, Left *left)
{
    u64 out[2];
    (void)unused;
    u16 number = with->tags_to_signature(IB_DATA, inputs.tags, 6 * (size_t)inputs.n, room, 4 * MOST_DATA, out);
    one_call(left, number, out, sizeof out, room, 8 * (size_t)inputs.n);
}

static void tags_out(const Calls *with, int unused, Left *left)
{
    u64 out[2];
    (void)unused;
    u16 number = with->signature_to_tags(IB_DATA, inputs.menu, 4 * (size_t)inputs.n, byte_room, sizeof byte_room, out);
    one_call(left, number, out, sizeof out, byte_room, 6 * (size_t)inputs.n);
}

static void records_in(const Calls *with, int unused, Left *left)
{
    u64 out[2];
    (void)unused;
    u16 number = with->read_records(inputs.records, 10 * (size_t)inputs.n, room, 4 * MOST_DATA, out);
    one_call(left, number, out, sizeof out, room, 8 * (size_t)inputs.n);
}

static void records_out(const Calls *with, int unused, Left *left)
{
    u64 out[2];
    (void)unused;
    u16 number = with->write_records(inputs.menu, 4 * (size_t)inputs.n, byte_room, sizeof byte_room, out);
    one_call(left, number, out, sizeof out, byte_room, 10 * (size_t)inputs.n);
}

static void level(const Calls *with, int unused, Left *left)
{
    u64 out[2];
    (void)unused;
    u16 number = with->level(inputs.menu, 4 * (size_t)inputs.n, (u16)inputs.n, out);
    one_call(left, number, out, sizeof out, 0, 0);
}

static void block(const Calls *with, int unused, Left *left)
{
    u64 out[3];
    (void)unused;
    u16 number = with->block_place(inputs.menu, 4 * (size_t)inputs.n, (u16)(inputs.n / 2), out);
    one_call(left, number, out, sizeof out, 0, 0);
}

const Row rows[] = {
    {"check, even menu, one turn", "step", check_even, ALL_STEPS, 1},
    {"check, uneven menu, one turn", "step", check, ALL_STEPS, 1},
    {"check, even menu, turns of 64", "step", check_even, SHORT_TURN, 0},
    {"preparing 3 nodes, one turn", "step", prepare, ALL_STEPS, 1},
    {"preparing 3 nodes, turns of 64", "step", prepare, SHORT_TURN, 0},
    {"preparing 16 nodes, one turn", "step", prepare_wide, ALL_STEPS, 0},
    {"walk, one answer, one turn", "step", walk_rare, ALL_STEPS, 1},
    {"walk, one answer, turns of 64", "step", walk_rare, SHORT_TURN, 0},
    {"whole listing, prepared and walked", "answer", listing, ALL_STEPS, 1},
    {"ordered, adversarial chain", "call", ordered_chain, 0, 1},
    {"ordered, first answer on the menu", "call", ordered_menu, 0, 0},
    {"fits, 16 nodes, one turn", "step", fits_chain, ALL_STEPS, 1},
    {"fits, 16 nodes, turns of 64", "step", fits_chain, SHORT_TURN, 0},
    {"fits, 3 nodes on the menu", "step", fits_menu, ALL_STEPS, 0},
    {"tag list to signature", "call", tags_in, 0, 1},
    {"signature to tag list", "call", tags_out, 0, 0},
    {"records to signature", "call", records_in, 0, 0},
    {"signature to records", "call", records_out, 0, 0},
    {"level", "call", level, 0, 0},
    {"block", "call", block, 0, 0},
    {"self, one context", "call", axis_one, IB_SELF, 0},
    {"child, one context", "call", axis_one, IB_CHILD, 0},
    {"descendant, one context", "call", axis_one, IB_DESCENDANT, 1},
    {"descendant-or-self, one context", "call", axis_one, IB_DESCENDANT_OR_SELF, 0},
    {"parent, one context", "call", axis_one, IB_PARENT, 0},
    {"ancestor, one context", "call", axis_one, IB_ANCESTOR, 0},
    {"ancestor-or-self, one context", "call", axis_one, IB_ANCESTOR_OR_SELF, 0},
    {"following, one context", "call", axis_one, IB_FOLLOWING, 0},
    {"preceding, one context", "call", axis_one, IB_PRECEDING, 0},
    {"following-sibling, one context", "call", axis_one, IB_FOLLOWING_SIBLING, 0},
    {"preceding-sibling, one context", "call", axis_one, IB_PRECEDING_SIBLING, 0},
    {"self, all contexts", "call", axis_all, IB_SELF, 0},
    {"child, all contexts", "call", axis_all, IB_CHILD, 0},
    {"descendant, all contexts", "call", axis_all, IB_DESCENDANT, 1},
    {"descendant-or-self, all contexts", "call", axis_all, IB_DESCENDANT_OR_SELF, 0},
    {"parent, all contexts", "call", axis_all, IB_PARENT, 0},
    {"ancestor, all contexts", "call", axis_all, IB_ANCESTOR, 1},
    {"ancestor-or-self, all contexts", "call", axis_all, IB_ANCESTOR_OR_SELF, 0},
    {"following, all contexts", "call", axis_all, IB_FOLLOWING, 0},
    {"preceding, all contexts", "call", axis_all, IB_PRECEDING, 0},
    {"following-sibling, all contexts", "call", axis_all, IB_FOLLOWING_SIBLING, 0},
    {"preceding-sibling, all contexts", "call", axis_all, IB_PRECEDING_SIBLING, 1},
    {"self, second, all contexts", "call", axis_second, IB_SELF, 0},
    {"child, second, all contexts", "call", axis_second, IB_CHILD, 0},
    {"descendant, second, all contexts", "call", axis_second, IB_DESCENDANT, 0},
    {"descendant-or-self, second, all contexts", "call", axis_second, IB_DESCENDANT_OR_SELF, 0},
    {"parent, second, all contexts", "call", axis_second, IB_PARENT, 0},
    {"ancestor, second, all contexts", "call", axis_second, IB_ANCESTOR, 0},
    {"ancestor-or-self, second, all contexts", "call", axis_second, IB_ANCESTOR_OR_SELF, 0},
    {"following, second, all contexts", "call", axis_second, IB_FOLLOWING, 0},
    {"preceding, second, all contexts", "call", axis_second, IB_PRECEDING, 0},
    {"following-sibling, second, all contexts", "call", axis_second, IB_FOLLOWING_SIBLING, 0},
    {"preceding-sibling, second, all contexts", "call", axis_second, IB_PRECEDING_SIBLING, 0},
    {"descendant, 100th, all contexts", "call", axis_hundredth, IB_DESCENDANT, 0},
    {"following, 100th, all contexts", "call", axis_hundredth, IB_FOLLOWING, 0},
    {"preceding, 100th, all contexts", "call", axis_hundredth, IB_PRECEDING, 0},
    {"following-sibling, 100th, all contexts", "call", axis_hundredth, IB_FOLLOWING_SIBLING, 0},
    {"preceding-sibling, 100th, all contexts", "call", axis_hundredth, IB_PRECEDING_SIBLING, 0},
    {"ancestor, second, wide tree", "call", axis_second_broad, IB_ANCESTOR, 1},
    {"ancestor-or-self, second, wide tree", "call", axis_second_broad, IB_ANCESTOR_OR_SELF, 0},
};

const int row_count = sizeof rows / sizeof rows[0];
