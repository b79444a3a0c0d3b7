/* The makers of cases. Each makes one question, runs it and what follows from it, and often damages what it lends. */
#ifndef MAKE_H
#define MAKE_H
#include "cases.h"

/* Parts that makers share. */
int random_size(void);                              /* of a data tree: mostly small, at times at the limit and above it */
int random_twig_size(void);
void twig_names(Tree *twig);                        /* gives some nodes any name */
void list_of_tree(List *to, const Tree *tree);      /* its signature */
void damage_numbers(List *list);
void damage_bytes(List *list);
u16 nearby(u16 x, u64 n);                           /* another number that is likely to be taken for x */
u64 random_budget(u64 usual);
u16 random_kind(int twig);
void random_room(Case *c, size_t len);
void fit_room(Case *c, size_t most);                /* a room one too small, exact or larger; the result has at most `most` numbers */
void small_question(Case *c, int names);            /* a twig and a signature of sizes that brute force can do, at times over the limits */

void make_read_records(Case *c);
void make_write_records(Case *c);
void make_tags_to_signature(Case *c);
void make_signature_to_tags(Case *c);
void make_check(Case *c);
void make_level(Case *c);
void make_block_place(Case *c);
void make_axis(Case *c);
void make_ordered(Case *c);
void make_fits(Case *c);
void make_loose(Case *c);
void make_walk_state(Case *c);

/* Whole questions: what the calls come to from beginning to end, held against every answer found by brute force. */
void whole_ordered(Case *c);
void whole_fits(Case *c);
void whole_loose(Case *c);

#endif
