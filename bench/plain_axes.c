/* The axes in plain C: without a position one pass over the entries for all contexts together, with a position each context by itself. */
#include "bench.h"

typedef struct {
    const u16 *sig;
    u32 n;
    u16 name;
    u8 marks[MOST_DATA + 2];
} Job;

static inline u32 ff_of(const Job *job, u32 i) { return job->sig[4 * (i - 1) + 2]; }
static inline u32 fa_of(const Job *job, u32 i) { return job->sig[4 * (i - 1) + 3]; }

static inline int passes(const Job *job, u32 i)
{
    return job->name == 0 || job->sig[4 * (i - 1)] == job->name;
}

/* Children, and descendants with or without the contexts themselves: marked from the contexts forward. */
static void mark_below(Job *job, const u16 *contexts, size_t count, u16 axis)
{
    u32 reach = 0;
    size_t k = 0;
    if (axis == IB_CHILD) {
        for (k = 0; k < count; k++)
            for (u32 j = contexts[k] + 1u; j < ff_of(job, contexts[k]); j = ff_of(job, j))
                job->marks[j] = 1;
        return;
    }
    for (u32 j = 1; j <= job->n; j++) {
        int is_context = k < count && contexts[k] == j;
        job->marks[j] = j < reach || (is_context && axis == IB_DESCENDANT_OR_SELF);
        if (is_context) {
            k++;
            reach = ff_of(job, j) > reach ? ff_of(job, j) : reach;
        }
    }
}

/* Parents, and ancestors with or without the contexts themselves: a climb stops where an earlier one has been. */
static void mark_above(Job *job, const u16 *contexts, size_t count, u16 axis)
{
    for (size_t k = 0; k < count; k++) {
        u32 up = axis == IB_ANCESTOR_OR_SELF ? contexts[k] : fa_of(job, contexts[k]);
        if (axis == IB_PARENT)
            job->marks[up] = 1;
        else
            for (; up && !job->marks[up]; up = fa_of(job, up))
                job->marks[up] = 1;
    }
}

static void mark_beside(Job *job, const u16 *contexts, size_t count, u16 axis)
{
    u32 n = job->n, least = n + 1;
    if (axis == IB_FOLLOWING) {
        for (size_t k = 0; k < count; k++)
            least = ff_of(job, contexts[k]) < least ? ff_of(job, contexts[k]) : least;
        for (u32 j = least; j <= n; j++)
            job->marks[j] = 1;
        return;
    }
    for (u32 j = 1; count && j < contexts[count - 1]; j++)
        job->marks[j] = ff_of(job, j) <= contexts[count - 1];
}

/* Siblings: for each parent the first, or the last, context among its children. */
static void mark_siblings(Job *job, const u16 *contexts, size_t count, u16 axis)
{
    u16 bound[MOST_DATA + 1];
    u32 n = job->n;
    for (u32 j = 0; j <= n; j++)
        bound[j] = axis == IB_FOLLOWING_SIBLING ? 0xFFFF : 0;
    for (size_t k = 0; k < count; k++) {
        u32 up = fa_of(job, contexts[k]);
        if (axis == IB_PRECEDING_SIBLING || bound[up] == 0xFFFF)
            bound[up] = contexts[k];
    }
    for (u32 j = 2; j <= n; j++)
        job->marks[j] = axis == IB_FOLLOWING_SIBLING ? bound[fa_of(job, j)] < j : bound[fa_of(job, j)] > j;
}

static void mark_all(Job *job, const u16 *contexts, size_t count, u16 axis)
{
    switch (axis) {
    case IB_SELF:
        for (size_t k = 0; k < count; k++)
            job->marks[contexts[k]] = 1;
        break;
    case IB_CHILD: case IB_DESCENDANT: case IB_DESCENDANT_OR_SELF:
        mark_below(job, contexts, count, axis);
        break;
    case IB_PARENT: case IB_ANCESTOR: case IB_ANCESTOR_OR_SELF:
        mark_above(job, contexts, count, axis);
        break;
    case IB_FOLLOWING: case IB_PRECEDING:
        mark_beside(job, contexts, count, axis);
        break;
    default:
        mark_siblings(job, contexts, count, axis);
    }
}

/* The p-th of the entries from j on, below the end, that pass: every entry, or each next sibling. */
static u32 forward(const Job *job, u32 j, u32 end, int siblings, u32 p)
{
    for (; j < end; j = siblings ? ff_of(job, j) : j + 1)
        if (passes(job, j) && --p == 0)
            return j;
    return 0;
}

/* The p-th ancestor in document order: the climb counts those that pass, and a second one stops where p of them are left. */
static u32 upward(const Job *job, u32 from, u32 p)
{
    u32 all = 0;
    for (u32 up = from; up; up = fa_of(job, up))
        all += (u32)passes(job, up);
    for (u32 up = from; up && all >= p; up = fa_of(job, up))
        if (passes(job, up) && all-- == p)
            return up;
    return 0;
}

static u32 one_at(const Job *job, u32 c, u16 axis, u32 p)
{
    u32 n = job->n, up = fa_of(job, c);
    switch (axis) {
    case IB_SELF: return forward(job, c, c + 1, 0, p);
    case IB_CHILD: return forward(job, c + 1, ff_of(job, c), 1, p);
    case IB_DESCENDANT: return forward(job, c + 1, ff_of(job, c), 0, p);
    case IB_DESCENDANT_OR_SELF: return forward(job, c, ff_of(job, c), 0, p);
    case IB_PARENT: return up ? forward(job, up, up + 1, 0, p) : 0;
    case IB_ANCESTOR: return upward(job, up, p);
    case IB_ANCESTOR_OR_SELF: return upward(job, c, p);
    case IB_FOLLOWING: return forward(job, ff_of(job, c), n + 1, 0, p);
    case IB_FOLLOWING_SIBLING: return up ? forward(job, ff_of(job, c), ff_of(job, up), 1, p) : 0;
    case IB_PRECEDING_SIBLING: return up ? forward(job, up + 1, c, 1, p) : 0;
    }
    for (u32 j = 1; j < c; j++)
        if (ff_of(job, j) <= c && passes(job, j) && --p == 0)
            return j;
    return 0;
}

u16 plain_axis(const u16 *sig, size_t len, const u16 *contexts, size_t count, u16 axis, u16 name, u16 position, u16 *room, size_t room_len, u64 out[2])
{
    Job job;
    u16 number = plain_whole(0, sig, len, &out[1]);
    u32 last = 0;
    out[0] = 0;
    if (number)
        return number;
    job.sig = sig;
    job.n = (u32)(len / 4);
    job.name = name;
    if (axis > 10)
        return 8;
    for (size_t k = 0; k < count; last = contexts[k++])
        if (contexts[k] <= last || contexts[k] > job.n)
            return 8;
    __builtin_memset(job.marks, 0, job.n + 1);
    if (position == 0)
        mark_all(&job, contexts, count, axis);
    else
        for (size_t k = 0; k < count; k++)
            job.marks[one_at(&job, contexts[k], axis, position)] = 1;
    size_t found = 0;
    for (u32 j = 1; j <= job.n; j++)
        found += job.marks[j] && passes(&job, j);
    if (found > room_len)
        return 10;
    out[0] = found;
    for (u32 j = 1; j <= job.n; j++)
        if (job.marks[j] && passes(&job, j))
            *room++ = (u16)j;
    return 0;
}
