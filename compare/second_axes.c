/* Axes, level and block, in XPath's words on the explicit tree of an accepted signature. */
#include "second.h"

static Tree tree;

u16 second_level(const u16 *sig, size_t sig_len, u16 rank, u64 *out)
{
    Fault fault = whole_fault(0, sig, sig_len, &tree);
    out[0] = 0;
    out[1] = fault.entry;
    if (fault.number)
        return fault.number;
    if (rank == 0 || rank > tree.size)
        return 8;
    out[0] = (u64)level_of(tree.ranked[rank]);
    return 0;
}

/* An element and all that is below it; every element below stands right after it, in the order in which elements open. */
u16 second_block_place(const u16 *sig, size_t sig_len, u16 rank, u64 *out)
{
    Fault fault = whole_fault(0, sig, sig_len, &tree);
    out[0] = out[1] = 0;
    out[2] = fault.entry;
    if (fault.number)
        return fault.number;
    if (rank == 0 || rank > tree.size)
        return 8;
    u64 count = 1;
    for (int i = 1; i <= tree.size; i++)
        count += (u64)is_below(tree.ranked[i], tree.ranked[rank]);
    out[0] = 4 * ((u64)rank - 1);
    out[1] = 4 * count;
    return 0;
}

static int before_in_document(const Node *a, const Node *b)
{
    return a->pre < b->pre;
}

/* Whether node is on the axis of the context, by XPath 1.0, section 2.2. */
static int on_axis(int axis, const Node *context, const Node *node)
{
    switch (axis) {
    case 0: return node == context;
    case 1: return node->parent == context;
    case 2: return is_below(node, context);
    case 3: return node == context || is_below(node, context);
    case 4: return context->parent == node;
    case 5: return is_below(context, node);
    case 6: return node == context || is_below(context, node);
    case 7: return before_in_document(context, node) && !is_below(node, context);
    case 8: return before_in_document(node, context) && !is_below(context, node);
    case 9: return context->parent && node->parent == context->parent && before_in_document(context, node);
    default: return context->parent && node->parent == context->parent && before_in_document(node, context);
    }
}

static int arguments_hold(const u16 *contexts, size_t count, u16 axis)
{
    if (axis > 10)
        return 0;
    for (size_t i = 0; i < count; i++)
        if (contexts[i] == 0 || contexts[i] > tree.size || (i > 0 && contexts[i] <= contexts[i - 1]))
            return 0;
    return 1;
}

u16 second_axis(const u16 *sig, size_t sig_len, const u16 *contexts, size_t contexts_len, u16 axis, u16 name, u16 position, u16 *room,
                size_t room_len, u64 *out)
{
    static u8 kept[MOST_NODES + 1];
    Fault fault = whole_fault(0, sig, sig_len, &tree);
    size_t length = 0;
    out[0] = 0;
    out[1] = fault.entry;
    if (fault.number)
        return fault.number;
    if (!arguments_hold(contexts, contexts_len, axis))
        return 8;
    for (int i = 1; i <= tree.size; i++)
        kept[i] = 0;
    for (size_t at = 0; at < contexts_len; at++) {
        u64 passed = 0;
        for (int i = 1; i <= tree.size; i++)
            if (on_axis(axis, tree.ranked[contexts[at]], tree.ranked[i]) && (name == 0 || tree.ranked[i]->name == name)) {
                passed++;
                if (position == 0 || passed == position)
                    kept[i] = 1;
            }
    }
    for (int i = 1; i <= tree.size; i++)
        length += kept[i];
    if (length > room_len)
        return 10;
    out[0] = length;
    for (int i = 1; i <= tree.size; i++)
        if (kept[i])
            *room++ = (u16)i;
    return 0;
}
