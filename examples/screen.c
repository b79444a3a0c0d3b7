/* What a screen does with the library: it checks the sample menu, prepares a question, walks its answers and asks whether layers fit in their order, each
 * in turns of seven steps, and gives the menu back between two turns, so that other screens can use it meanwhile. All that it keeps of a job is the job's
 * few saved numbers and what it lent. Then the menu gets a wrong pointer, and the screen says what is wrong with it. examples/run builds and runs it. */
#include "icebittern.h"

long write(int file, const void *from, size_t count);

enum { ELEMENTS = 10, NODES = 2, PACKED = 3, STEPS = 7 };

/* The paper's tree of ten elements: name, post, ff, fa. */
static uint16_t menu[4 * ELEMENTS] = {
    1, 10, 11, 0,  2, 5, 7, 1,  3, 3, 6, 2,  4, 1, 5, 3,  5, 2, 6, 3,
    7, 4, 7, 2,  6, 9, 11, 1,  8, 8, 11, 7,  9, 6, 10, 8,  10, 7, 11, 8,
};

/* The twig 2(any): every element below one that is named 2. */
static const uint16_t question[4 * NODES] = {2, 2, 3, 0,  0, 1, 3, 1};

static uint16_t table[2 * ELEMENTS];

/* The twigs 8(9,10) and 8(10,9): a box and its layers in their order. */
static const uint16_t in_order[4 * PACKED] = {8, 3, 4, 0,  9, 1, 3, 1,  10, 2, 4, 1};
static const uint16_t exchanged[4 * PACKED] = {8, 3, 4, 0,  10, 1, 3, 1,  9, 2, 4, 1};

/* A number for each of the twig's nodes and each element. It need not be cleared, and stays as a turn left it until the next. */
static uint16_t room[PACKED * ELEMENTS];

static void say(const char *text)
{
    size_t length = 0;
    while (text[length])
        length++;
    if (write(1, text, length) < 0)
        return;
}

static void say_number(uint64_t x)
{
    char digits[21];
    int at = 20;
    digits[at] = 0;
    do
        digits[--at] = (char)('0' + x % 10);
    while ((x /= 10) != 0);
    say(digits + at);
}

/* Says what a turn came to, and hands the menu to whoever waits for it; 1 if the job goes on. */
static int goes_on(uint16_t number, const uint64_t out[3])
{
    static const char *const stops[] = {": an answer\n", ": at the end\n", ": given back\n"};
    say("a turn of ");
    say_number(out[1]);
    say(" steps");
    if (out[0] != IB_REFUSED) {
        say(stops[out[0]]);
        return out[0] != IB_END;
    }
    say(": refused with number ");
    say_number(number);
    if (out[2]) {
        say(" at entry ");
        say_number(out[2]);
    }
    say("\n");
    return 0;
}

/* 1 if the menu is accepted. */
static int check(void)
{
    uint16_t state[3] = {1, 0, 0}, number;
    uint64_t out[3];
    do
        number = ib_check_turn(IB_DATA, menu, 4 * ELEMENTS, state, STEPS, out);
    while (goes_on(number, out));
    return number == 0;
}

static int prepare(void)
{
    uint16_t state[1], number;
    uint64_t out[3], fresh[1];
    number = ib_prepare_start(ELEMENTS, table, 2 * ELEMENTS, fresh);
    if (number)
        return 0;
    state[0] = (uint16_t)fresh[0];
    do
        number = ib_prepare_turn(menu, 4 * ELEMENTS, question, 4 * NODES, table, 2 * ELEMENTS, state, STEPS, out);
    while (goes_on(number, out));
    return number == 0;
}

/* Says each answer: the ranks of the twig's nodes. */
static int walk(void)
{
    uint16_t state[19], number;
    uint64_t out[3];
    ib_walk_fresh(state);
    do {
        number = ib_walk_turn(menu, 4 * ELEMENTS, question, 4 * NODES, table, 2 * ELEMENTS, state, STEPS, out);
        for (int node = 0; node < NODES && number == 0 && out[0] == IB_ANSWER; node++) {
            say_number(state[node]);
            say(node + 1 < NODES ? " " : ", after ");
        }
    } while (goes_on(number, out));
    return number == 0;
}

/* Says whether the layers fit in their order: an answer means yes, the end no. Both stand, so a turn after a yes would only say it again. */
static int fits(const uint16_t *order)
{
    uint16_t state[3] = {PACKED, ELEMENTS, IB_ASKING}, number;
    uint64_t out[3];
    do
        number = ib_fits_turn(menu, 4 * ELEMENTS, order, 4 * PACKED, room, PACKED * ELEMENTS, state, STEPS, out);
    while (goes_on(number, out) && out[0] != IB_ANSWER);
    if (number == 0)
        say(out[0] == IB_ANSWER ? "yes, it fits\n" : "no, it does not fit\n");
    return number == 0;
}

int main(void)
{
    say("check\n");
    int good = check();
    say("prepare\n");
    good = good && prepare();
    say("walk\n");
    good = good && walk();
    say("does 9 before 10 fit in 8?\n");
    good = good && fits(in_order);
    say("does 10 before 9 fit in 8?\n");
    good = good && fits(exchanged);
    say("check the same with a wrong pointer at entry 6\n");
    menu[4 * 5 + 3] = 3;
    return good && !check() ? 0 : 1;
}
