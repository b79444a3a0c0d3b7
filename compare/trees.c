/* Explicit trees. */
#include "trees.h"

void begin_tree(Tree *tree, u16 name)
{
    Node root = {0};
    root.name = name;
    tree->node[0] = root;
    tree->size = 1;
}

Node *add_child(Tree *tree, Node *parent, u16 name)
{
    Node *child = &tree->node[tree->size++];
    Node fresh = {0};
    *child = fresh;
    child->name = name;
    child->parent = parent;
    if (parent->last)
        parent->last->next = child;
    else
        parent->first = child;
    parent->last = child;
    return child;
}

/* pre counts as elements open, post as they close. What opens next when an element closes is the first rank after it that is not below it. */
static void open_and_close(Tree *tree, Node *node, u16 *opened, u16 *closed)
{
    node->pre = ++*opened;
    tree->ranked[node->pre] = node;
    for (Node *child = node->first; child; child = child->next)
        open_and_close(tree, child, opened, closed);
    node->post = ++*closed;
    node->ff = (u16)(*opened + 1);
}

void number_tree(Tree *tree)
{
    u16 opened = 0, closed = 0;
    open_and_close(tree, &tree->node[0], &opened, &closed);
}

/* Trees of several shapes: any parent, a late parent (deep), an early one (wide), a chain. */
void random_tree(Tree *tree, int size, int names)
{
    int shape = (int)below_number(4);
    begin_tree(tree, (u16)between(1, (u64)names));
    while (tree->size < size) {
        u64 count = (u64)tree->size, at = below_number(count);
        if (shape == 1)
            at = count - 1 - below_number(count < 3 ? count : 3);
        if (shape == 2)
            at = below_number(count < 3 ? count : 3);
        if (shape == 3 && !one_in(8))
            at = count - 1;
        add_child(tree, &tree->node[at], (u16)between(1, (u64)names));
    }
    number_tree(tree);
}

void signature_of(const Tree *tree, u16 *sig)
{
    for (int i = 1; i <= tree->size; i++) {
        const Node *node = tree->ranked[i];
        *sig++ = node->name;
        *sig++ = node->post;
        *sig++ = node->ff;
        *sig++ = node->parent ? node->parent->pre : 0;
    }
}

int is_below(const Node *low, const Node *high)
{
    for (const Node *up = low->parent; up; up = up->parent)
        if (up == high)
            return 1;
    return 0;
}

int level_of(const Node *node)
{
    int level = 0;
    for (const Node *up = node->parent; up; up = up->parent)
        level++;
    return level;
}

/* The parents that the signature names make at most one tree. It yields the signature if numbering it gives every number back. */
int tree_that_yields(Tree *tree, const u16 *sig, int n, int any_name)
{
    static u16 back[4 * MOST_NODES];
    if (sig[3] != 0)
        return 0;
    begin_tree(tree, sig[0]);
    for (int i = 2; i <= n; i++) {
        u16 fa = sig[4 * (i - 1) + 3];
        if (fa == 0 || fa >= i)
            return 0;
        add_child(tree, &tree->node[fa - 1], sig[4 * (i - 1)]);
    }
    number_tree(tree);
    signature_of(tree, back);
    for (int i = 0; i < 4 * n; i++)
        if (back[i] != sig[i])
            return 0;
    for (int i = 0; i < n && !any_name; i++)
        if (sig[4 * i] == 0)
            return 0;
    return 1;
}
