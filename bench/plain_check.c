/* The check, the level and the block in plain C. */
#include "bench.h"

typedef struct {
    u32 next, top, closed;
    u64 steps, entry;
    u16 stop, number;
} Run;

static inline u16 fault_of(int any_name, size_t len)
{
    if (len == 0 || len % 4 != 0)
        return 1;
    return len / 4 > (any_name ? MOST_TWIG : MOST_DATA) ? 7 : 0;
}

static inline void refuse(Run *run, u16 number, u32 entry)
{
    run->stop = IB_REFUSED;
    run->number = number;
    run->entry = entry;
}

/* Rule 1: the refusal of the next entry, or 0. */
static inline u16 entry_fault(int any_name, const u16 *entry, u32 i)
{
    if (entry[0] == 0 && !any_name)
        return 3;
    return entry[3] >= i || (i > 1 && entry[3] == 0) ? 4 : 0;
}

/* Rule 4: the refusal of closing the innermost open element, or 0. */
static inline u16 close_fault(const u16 *entry, u32 i, u32 top, u32 closed)
{
    if (closed == i - 1)
        return 9;
    if (entry[1] != closed + 1)
        return 5;
    if (entry[2] != i)
        return 6;
    return entry[3] >= top ? 4 : 0;
}

/* The steps from a state within its ranges, all of them in one loop over plain locals. */
static inline void check_run(int any_name, const u16 *sig, u32 n, u64 budget, Run *run)
{
    u32 i = run->next, top = run->top, closed = run->closed;
    u64 steps = 0;
    u16 fault = 0;
    while (!(i == n + 1 && top == 0) && steps < budget) {
        const u16 *entry = sig + 4 * (i - 1);
        if (i <= n && (fault = entry_fault(any_name, entry, i))) {
            refuse(run, fault, i);
            break;
        }
        if (i <= n && entry[3] == top) {
            top = i++;
        } else {
            entry = sig + 4 * (top - 1);
            fault = top == 0 ? 4 : close_fault(entry, i, top, closed);
            if (fault) {
                refuse(run, fault, top == 0 ? i : fault == 9 ? 0 : top);
                break;
            }
            closed++;
            top = entry[3];
        }
        steps++;
    }
    if (!fault)
        run->stop = i == n + 1 && top == 0 ? IB_END : IB_BUDGET;
    run->next = i;
    run->top = top;
    run->closed = closed;
    run->steps = steps;
}

u16 plain_check_turn(u16 kind, const u16 *sig, size_t len, u16 state[3], u64 budget, u64 out[3])
{
    int any_name = kind != IB_DATA;
    u32 n = (u32)(len / 4);
    Run run = {state[0], state[1], state[2], 0, 0, 0, 0};
    u16 fault = fault_of(any_name, len);
    if (fault)
        refuse(&run, fault, 0);
    else if (run.next < 1 || run.next > n + 1 || run.top >= run.next || run.closed >= run.next)
        refuse(&run, 9, 0);
    else
        check_run(any_name, sig, n, budget, &run);
    state[0] = (u16)run.next;
    state[1] = (u16)run.top;
    state[2] = (u16)run.closed;
    out[0] = run.stop;
    out[1] = run.steps;
    out[2] = run.entry;
    return run.number;
}

u16 plain_whole(int any_name, const u16 *sig, size_t len, u64 *entry)
{
    Run run = {1, 0, 0, 0, 0, 0, 0};
    u16 fault = fault_of(any_name, len);
    *entry = 0;
    if (fault)
        return fault;
    check_run(any_name, sig, (u32)(len / 4), ~(u64)0, &run);
    *entry = run.entry;
    return run.number;
}

u16 plain_level(const u16 *sig, size_t len, u16 rank, u64 out[2])
{
    u16 number = plain_whole(0, sig, len, &out[1]);
    out[0] = 0;
    if (number)
        return number;
    if (rank < 1 || rank > len / 4)
        return 8;
    for (u32 up = sig[4 * (rank - 1) + 3]; up; up = sig[4 * (up - 1) + 3])
        out[0]++;
    return 0;
}

u16 plain_block_place(const u16 *sig, size_t len, u16 rank, u64 out[3])
{
    u16 number = plain_whole(0, sig, len, &out[2]);
    out[0] = out[1] = 0;
    if (number)
        return number;
    if (rank < 1 || rank > len / 4)
        return 8;
    out[0] = 4 * (u64)(rank - 1);
    out[1] = 4 * (u64)(sig[4 * (rank - 1) + 2] - rank);
    return 0;
}
