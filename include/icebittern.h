/* Icebittern's C interface: what a screen links, with libkiosk.a.
 *
 * Trees and numbers. A data tree has n elements, 1 to 4,096; a twig has m nodes, 1 to 16. Names are codes 1 to 65,535; code 0 stands for any
 * name, in a twig or a name test only. pre counts from 1 as elements open, post from 1 as they close. A signature is 4*n numbers: for each entry,
 * in the order of pre, its name, its post, ff (the first rank after it that is not below it, or n+1) and fa (its parent, or 0 at the root).
 * A twig has the same form. Wherever this page says rank or entry, it means pre.
 *
 * Every call takes any numbers, bytes and states whatever, ends, and returns a refusal number, 0 if it worked:
 *    1  empty, or ends inside a record or entry
 *    2  unknown mark
 *    3  name 0 in a data tree
 *    4  fa is not an open element
 *    5  post is wrong
 *    6  ff is wrong
 *    7  n over 4,096 or m over 16
 *    8  axis over 10; a context or entry rank of 0 or over n; contexts not strictly ascending; a tuple number over n, or a tuple not of m numbers
 *    9  saved state outside its ranges
 *   10  lent room too small
 *   11  a turn met an fa or ff outside its range
 *   12  tag nesting: close with nothing open, a record after the root closed, or an element open at the end
 *
 * A single call that refuses writes nothing into the room, and its out numbers are 0, but for the entry that 3 to 6 from the check name.
 * A call that works writes its result at the front of the room and nothing beyond it; 10 is given exactly if the result is longer than the room,
 * or a lent table is shorter than 2*n, or the room of ib_fits_turn than m*n.
 *
 * A turn may spend `budget` steps. out[0] says what stopped it, out[1] how many steps it took, out[2] which entry a refusal 3 to 6 names, else 0.
 * It returns the refusal's number where out[0] is IB_REFUSED, else 0. The saved state is rewritten by the steps it took and by nothing else: a turn
 * that is refused leaves the state after the steps before the faulty one.
 *
 * The order of refusals, the first that applies: for each record mark, length, name and nesting, then a count over the limit; for a signature its
 * length (1, then 7), its contents from the front, arguments (8), the saved state (9), room (10). A twig is checked whole before the signature's length.
 *
 * A list is a pointer and a length; `state` and `out` point to as many numbers as their brackets say, which nothing checks. No pointer is null, the one
 * of an empty list neither, and each is aligned for its type. What is lent does not overlap, but for two lists that are only read. A number handed in
 * has the bits of its type: C cuts a greater one before the call sees it.
 */
#ifndef ICEBITTERN_H
#define ICEBITTERN_H

#include <stddef.h>
#include <stdint.h>

#ifdef __cplusplus
extern "C" {
#endif

/* Kinds of tree. Any number other than 0 is taken as a twig. */
#define IB_DATA 0
#define IB_TWIG 1

/* What stopped a turn. */
#define IB_ANSWER 0
#define IB_END 1
#define IB_BUDGET 2
#define IB_REFUSED 3

/* The axes. The document node of XPath is never in an answer: the root element has no parent. */
#define IB_SELF 0
#define IB_CHILD 1
#define IB_DESCENDANT 2
#define IB_DESCENDANT_OR_SELF 3
#define IB_PARENT 4
#define IB_ANCESTOR 5
#define IB_ANCESTOR_OR_SELF 6
#define IB_FOLLOWING 7
#define IB_PRECEDING 8
#define IB_FOLLOWING_SIBLING 9
#define IB_PRECEDING_SIBLING 10

/* Signature records to numbers. A record is `SE` and the four numbers of an entry, low byte first: 10 bytes. Only the name is judged.
 * out: numbers written; 0. Refuses 1, 2, 3, 7, 10. */
uint16_t ib_read_records(const uint8_t *bytes, size_t bytes_len, uint16_t *room, size_t room_len, uint64_t out[2]);

/* A signature to signature records, 10 bytes an entry. Only the name is judged. out: bytes written; 0. Refuses 1, 3, 7, 10. */
uint16_t ib_write_records(const uint16_t *sig, size_t sig_len, uint8_t *room, size_t room_len, uint64_t out[2]);

/* A tag list to a signature. `OP` and a name, low byte first, opens an element (4 bytes); `CL` closes the innermost one (2 bytes). A tag list is one
 * whole tree. out: numbers written, 4 an element; 0. Refuses 1, 2, 3 (kind IB_DATA only), 7, 10, 12. */
uint16_t ib_tags_to_signature(uint16_t kind, const uint8_t *bytes, size_t bytes_len, uint16_t *room, size_t room_len, uint64_t out[2]);

/* A signature back to its tag list, 6 bytes an element. The signature is checked whole first.
 * out: bytes written; the entry that 3 to 6 name. Refuses 1, 3 (kind IB_DATA only), 4, 5, 6, 7, 10. */
uint16_t ib_signature_to_tags(uint16_t kind, const uint16_t *sig, size_t sig_len, uint8_t *room, size_t room_len, uint64_t out[2]);

/* A turn of the check, one element opened or closed a step. The state is: the next entry, the innermost open element (0 for none), the number
 * closed; next is 1 to n+1, and the other two are below it. A check begun with 1, 0, 0, with the same signature and kind in every turn and a state that
 * nobody altered, is accepted, out[0] IB_END, in exactly 2*n steps, and exactly if a tree yields the signature. A finished check says so at every budget.
 * out: what stopped it; steps; entry. Refuses 1, 3 (kind IB_DATA only), 4, 5, 6, 7, 9. */
uint16_t ib_check_turn(uint16_t kind, const uint16_t *sig, size_t sig_len, uint16_t state[3], uint64_t budget, uint64_t out[3]);

/* The level of an entry: the number of its ancestors. The signature is checked whole first.
 * out: the level; the entry that 3 to 6 name. Refuses 1, 3, 4, 5, 6, 7, 8. */
uint16_t ib_level(const uint16_t *sig, size_t sig_len, uint16_t rank, uint64_t out[2]);

/* Where the block of an entry lies in the signature: the entry and all below it. The block itself is the part of `sig` that out names; nothing is
 * copied. out: the place of its first number, counted from 0; how many numbers; the entry that 3 to 6 name. Refuses 1, 3, 4, 5, 6, 7, 8. */
uint16_t ib_block_place(const uint16_t *sig, size_t sig_len, uint16_t rank, uint64_t out[3]);

/* The elements on an axis of any of the contexts, ascending, each rank once. `contexts` are ranks, strictly ascending, perhaps none. `name` 0 passes
 * any name. A `position` p of 1 or more keeps, for each context separately, only the p-th element that passes the name test, counted in document
 * order; 0 means no position. out: ranks written; the entry that 3 to 6 name. Refuses 1, 3, 4, 5, 6, 7, 8, 10. */
uint16_t ib_axis(const uint16_t *sig, size_t sig_len, const uint16_t *contexts, size_t contexts_len, uint16_t axis, uint16_t name,
                 uint16_t position, uint16_t *room, size_t room_len, uint64_t out[2]);

/* The smallest ordered answer of the twig that is greater than `tuple`: m numbers, each 0 to n. Begin with zeros, and hand each answer back for the
 * next, copied, since tuple and room do not overlap. out: m, or 0 for none; the entry that 3 to 6 name (4 to 6 may be the twig's). Refuses 1, 3, 4, 5, 6, 7, 8, 10. */
uint16_t ib_ordered_next(const uint16_t *sig, size_t sig_len, const uint16_t *twig, size_t twig_len, const uint16_t *tuple, size_t tuple_len,
                         uint16_t *room, size_t room_len, uint64_t out[2]);

/* A turn of the ordered question: has the twig an ordered answer? Each step looks at one entry for one node and writes one number of the room. The room has m*n
 * numbers, which need not be cleared and must stay as they were left between turns; numbers beyond them are never touched. The state is the node, the entry, and 0 asking,
 * 1 yes, 2 no; a question begins with m, n, 0. The node is 1 to m and the entry 1 to n; at yes the node is 1, at no the entry is 1. out[0] is IB_ANSWER at yes and IB_END
 * at no, and so it is again, with no step, in every later turn. If the check accepts the signature, at most m*n steps lead from the beginning to yes or no, and it is yes
 * exactly if ib_ordered_next gives an answer above zeros. The twig is checked whole, the signature is not: its faults are met step by step.
 * out: what stopped it; steps; the entry of the twig that 4 to 6 name. Refuses 1, 4, 5, 6, 7, 9 (a third number over 2 too), 10, 11. */
#define IB_ASKING 0
#define IB_YES 1
#define IB_NO 2
uint16_t ib_fits_turn(const uint16_t *sig, size_t sig_len, const uint16_t *twig, size_t twig_len, uint16_t *room, size_t room_len,
                      uint16_t state[3], uint64_t budget, uint64_t out[3]);

/* Begins preparing for a signature of n entries: sets the first 2*n numbers of the table to zero. The table has two numbers an entry: can, below.
 * out: the fresh state, n, for state[0] of the first turn. Refuses 1, 7, 10. */
uint16_t ib_prepare_start(uint64_t n, uint16_t *table, size_t table_len, uint64_t out[1]);

/* A turn of preparing. The state is the next entry, from n down to 0 when done; n steps in all from the fresh state, unless one is refused. A step
 * writes can of its entry and joins it into below of the entry's fa. The twig is checked whole, the signature is not: its faults are met step by step.
 * out: what stopped it; steps; the entry of the twig that 4 to 6 name. Refuses 1, 4, 5, 6, 7, 9, 10, 11. */
uint16_t ib_prepare_turn(const uint16_t *sig, size_t sig_len, const uint16_t *twig, size_t twig_len, uint16_t *table, size_t table_len,
                         uint16_t state[1], uint64_t budget, uint64_t out[3]);

/* Sets the state of a walk that begins: images 0, node 1, candidate 1, walking. Returns 0. */
uint16_t ib_walk_fresh(uint16_t state[19]);

/* A turn of the walk over a prepared table, which stops at each loose answer with IB_ANSWER and at last with IB_END. The state is the sixteen images,
 * then the node, the candidate, and the phase: 0 walking, 1 at an answer, 2 ended. At an answer the first m numbers of the state are its ranks, in
 * twig preorder. If the check accepts the signature, and the table was prepared for it and this twig, at most 2*m*n+1 steps lead from the beginning, and
 * from each answer, to the next answer or the end.
 * out: what stopped it; steps; the entry of the twig that 4 to 6 name. Refuses 1, 4, 5, 6, 7, 9 (a phase over 2 too), 10, 11. */
uint16_t ib_walk_turn(const uint16_t *sig, size_t sig_len, const uint16_t *twig, size_t twig_len, const uint16_t *table, size_t table_len,
                      uint16_t state[19], uint64_t budget, uint64_t out[3]);

#ifdef __cplusplus
}
#endif

#endif
