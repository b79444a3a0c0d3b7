/* The check. A turn goes by the written rule, step by step; a whole signature is accepted if there is a tree that yields it, and the rule's own
 * verdict must agree with that. */
#include "second.h"

typedef struct {
    long i, top, closed;
} State;

u16 length_number(size_t len, size_t most)
{
    if (len == 0 || len % 4 != 0)
        return 1;
    return len > 4 * most ? 7 : 0;
}

static Fault fault_at(long number, long entry)
{
    Fault fault = {(u16)number, (u16)entry};
    return fault;
}

/* One step of the rule; the state moves only if the step is taken. */
static Fault take_step(const u16 *sig, long n, int twig, State *state)
{
    long i = state->i, top = state->top;
    if (i <= n) {
        long fa = part(sig, i, 3);
        if (!twig && part(sig, i, 0) == 0)
            return fault_at(3, i);
        if (fa >= i || (i > 1 && fa == 0))
            return fault_at(4, i);
        if (fa == top) {
            state->top = i;
            state->i = i + 1;
            return fault_at(0, 0);
        }
    }
    if (top == 0)
        return fault_at(4, i);
    if (state->closed == i - 1)
        return fault_at(9, 0);
    if (part(sig, top, 1) != state->closed + 1)
        return fault_at(5, top);
    if (part(sig, top, 2) != i)
        return fault_at(6, top);
    if (part(sig, top, 3) >= top)
        return fault_at(4, top);
    state->closed++;
    state->top = part(sig, top, 3);
    return fault_at(0, 0);
}

Fault whole_fault(int twig, const u16 *sig, size_t len, Tree *tree)
{
    u16 number = length_number(len, twig ? MOST_TWIG : MOST_DATA);
    if (number)
        return fault_at(number, 0);
    long n = (long)(len / 4), steps = 0;
    State state = {1, 0, 0};
    Fault fault = {0, 0};
    while (!(state.i == n + 1 && state.top == 0) && fault.number == 0) {
        fault = take_step(sig, n, twig, &state);
        steps += fault.number == 0;
    }
    int yields = tree_that_yields(tree, sig, (int)n, twig);
    if (yields != (fault.number == 0) || (yields && steps != 2 * n))
        give_up("the written rule and the trees disagree in the second program");
    return fault;
}

u16 second_check_turn(u16 kind, const u16 *sig, size_t sig_len, u16 *saved, u64 budget, u64 *out)
{
    u16 number = length_number(sig_len, kind ? MOST_TWIG : MOST_DATA);
    long n = (long)(sig_len / 4);
    State state = {saved[0], saved[1], saved[2]};
    if (number == 0 && !(state.i >= 1 && state.i <= n + 1 && state.top < state.i && state.closed < state.i))
        number = 9;
    Fault fault = fault_at(number, 0);
    u64 steps = 0, stop = 3;
    while (fault.number == 0) {
        if (state.i == n + 1 && state.top == 0) {
            stop = 1;
            break;
        }
        if (steps == budget) {
            stop = 2;
            break;
        }
        fault = take_step(sig, n, kind != 0, &state);
        steps += fault.number == 0;
    }
    saved[0] = (u16)state.i;
    saved[1] = (u16)state.top;
    saved[2] = (u16)state.closed;
    out[0] = stop;
    out[1] = steps;
    out[2] = fault.entry;
    return fault.number;
}
