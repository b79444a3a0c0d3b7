/* Explicit trees: each element with its parent and the list of its children. All that the second program says of ranks it reads off such a tree. */
#ifndef TREES_H
#define TREES_H
#include "base.h"

enum { MOST_NODES = MOST_DATA + 8 };

typedef struct Node {
    struct Node *parent, *first, *last, *next;   /* the parent; the first and last child; the sibling after */
    u16 name;
    u16 pre, post, ff;                           /* set by number_tree */
} Node;

typedef struct {
    int size;
    Node node[MOST_NODES];                       /* in the order in which they were made; node 0 is the root */
    Node *ranked[MOST_NODES + 1];                /* by pre, from 1 */
} Tree;

void begin_tree(Tree *tree, u16 name);
Node *add_child(Tree *tree, Node *parent, u16 name);
void number_tree(Tree *tree);                    /* opens and closes every element once, and counts */
void random_tree(Tree *tree, int size, int names);
void signature_of(const Tree *tree, u16 *sig);
int is_below(const Node *low, const Node *high); /* by climbing parents */
int level_of(const Node *node);

/* The tree that yields a signature of n entries, name 0 allowed or not; 0 where there is none. */
int tree_that_yields(Tree *tree, const u16 *sig, int n, int any_name);

#endif
