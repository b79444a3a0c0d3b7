/* The second program's calls: each takes and gives what the library's call of the same name does (include/icebittern.h), by the
 * definitions of document 01 and the written rules beside it, on explicit trees and plain arrays. */
#ifndef SECOND_H
#define SECOND_H
#include "trees.h"

typedef struct {
    u16 number, entry;
} Fault;

/* The length of a list of numbers: 1, then 7, or 0. */
u16 length_number(size_t len, size_t most);

/* A signature whole: its length, then its contents from the front. Where it is accepted, tree is the tree that yields it. */
Fault whole_fault(int twig, const u16 *sig, size_t len, Tree *tree);

/* A number of an entry: 0 its name, 1 post, 2 ff, 3 fa. */
static inline long part(const u16 *sig, long entry, int which)
{
    return sig[(entry - 1) * 4 + which];
}

/* What a turn with a twig judges first: the twig whole, whose tree it gives, then the signature's length. */
Fault given(const u16 *twig_sig, size_t twig_len, Tree *twig, size_t sig_len);

/* What a turn hands out; the refusal's number. */
u16 stopped(u64 *out, u64 stop, u64 steps, Fault fault);

/* Every loose answer, or every ordered one, in ascending order, m numbers each; how many there are, or -1 for more than `most`. */
long all_answers(int ordered, Tree *data, Tree *twig, u16 *to, long most);

u16 second_read_records(const u8 *bytes, size_t bytes_len, u16 *room, size_t room_len, u64 *out);
u16 second_write_records(const u16 *sig, size_t sig_len, u8 *room, size_t room_len, u64 *out);
u16 second_tags_to_signature(u16 kind, const u8 *bytes, size_t bytes_len, u16 *room, size_t room_len, u64 *out);
u16 second_signature_to_tags(u16 kind, const u16 *sig, size_t sig_len, u8 *room, size_t room_len, u64 *out);
u16 second_check_turn(u16 kind, const u16 *sig, size_t sig_len, u16 *state, u64 budget, u64 *out);
u16 second_level(const u16 *sig, size_t sig_len, u16 rank, u64 *out);
u16 second_block_place(const u16 *sig, size_t sig_len, u16 rank, u64 *out);
u16 second_axis(const u16 *sig, size_t sig_len, const u16 *contexts, size_t contexts_len, u16 axis, u16 name, u16 position, u16 *room,
                size_t room_len, u64 *out);
u16 second_ordered_next(const u16 *sig, size_t sig_len, const u16 *twig, size_t twig_len, const u16 *tuple, size_t tuple_len, u16 *room,
                        size_t room_len, u64 *out);
u16 second_fits_turn(const u16 *sig, size_t sig_len, const u16 *twig, size_t twig_len, u16 *room, size_t room_len, u16 *state, u64 budget,
                     u64 *out);
u16 second_prepare_start(u64 n, u16 *table, size_t table_len, u64 *out);
u16 second_prepare_turn(const u16 *sig, size_t sig_len, const u16 *twig, size_t twig_len, u16 *table, size_t table_len, u16 *state, u64 budget,
                        u64 *out);
u16 second_walk_fresh(u16 *state);
u16 second_walk_turn(const u16 *sig, size_t sig_len, const u16 *twig, size_t twig_len, const u16 *table, size_t table_len, u16 *state, u64 budget,
                     u64 *out);

#endif
