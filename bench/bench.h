/* What every file of the measurement uses. The library and the plain C beside it are two tables of the same calls, so that each row runs one piece of
 * code twice and can compare what both sides leave. It leans on a few functions of the C library and on none of its headers, so that a compiler without
 * headers builds it too. */
#ifndef BENCH_H
#define BENCH_H
#include "../include/icebittern.h"

typedef uint8_t u8;
typedef uint16_t u16;
typedef uint32_t u32;
typedef uint64_t u64;

enum { MOST_DATA = 4096, MOST_TWIG = 16 };

typedef struct {
    u16 (*read_records)(const u8 *, size_t, u16 *, size_t, u64[2]);
    u16 (*write_records)(const u16 *, size_t, u8 *, size_t, u64[2]);
    u16 (*tags_to_signature)(u16, const u8 *, size_t, u16 *, size_t, u64[2]);
    u16 (*signature_to_tags)(u16, const u16 *, size_t, u8 *, size_t, u64[2]);
    u16 (*check_turn)(u16, const u16 *, size_t, u16[3], u64, u64[3]);
    u16 (*level)(const u16 *, size_t, u16, u64[2]);
    u16 (*block_place)(const u16 *, size_t, u16, u64[3]);
    u16 (*axis)(const u16 *, size_t, const u16 *, size_t, u16, u16, u16, u16 *, size_t, u64[2]);
    u16 (*ordered_next)(const u16 *, size_t, const u16 *, size_t, const u16 *, size_t, u16 *, size_t, u64[2]);
    u16 (*fits_turn)(const u16 *, size_t, const u16 *, size_t, u16 *, size_t, u16[3], u64, u64[3]);
    u16 (*prepare_start)(u64, u16 *, size_t, u64[1]);
    u16 (*prepare_turn)(const u16 *, size_t, const u16 *, size_t, u16 *, size_t, u16[1], u64, u64[3]);
    u16 (*walk_fresh)(u16[19]);
    u16 (*walk_turn)(const u16 *, size_t, const u16 *, size_t, const u16 *, size_t, u16[19], u64, u64[3]);
} Calls;

extern const Calls library, plain;

/* The plain side. Each call does the library's whole work, refusals in the library's order included; nothing of it is proved. */
u16 plain_whole(int any_name, const u16 *sig, size_t len, u64 *entry);   /* the whole check: the refusal, or 0 */
u16 plain_check_turn(u16 kind, const u16 *sig, size_t len, u16 state[3], u64 budget, u64 out[3]);
u16 plain_level(const u16 *sig, size_t len, u16 rank, u64 out[2]);
u16 plain_block_place(const u16 *sig, size_t len, u16 rank, u64 out[3]);
u16 plain_axis(const u16 *sig, size_t len, const u16 *contexts, size_t count, u16 axis, u16 name, u16 position, u16 *room, size_t room_len, u64 out[2]);
u16 plain_ordered_next(const u16 *sig, size_t len, const u16 *twig, size_t twig_len, const u16 *tuple, size_t tuple_len, u16 *room, size_t room_len,
                       u64 out[2]);
u16 plain_fits_turn(const u16 *sig, size_t len, const u16 *twig, size_t twig_len, u16 *room, size_t room_len, u16 state[3], u64 budget, u64 out[3]);
u16 plain_prepare_start(u64 n, u16 *table, size_t table_len, u64 out[1]);
u16 plain_prepare_turn(const u16 *sig, size_t len, const u16 *twig, size_t twig_len, u16 *table, size_t table_len, u16 state[1], u64 budget, u64 out[3]);
u16 plain_walk_fresh(u16 state[19]);
u16 plain_walk_turn(const u16 *sig, size_t len, const u16 *twig, size_t twig_len, const u16 *table, size_t table_len, u16 state[19], u64 budget,
                    u64 out[3]);
u16 plain_read_records(const u8 *bytes, size_t len, u16 *room, size_t room_len, u64 out[2]);
u16 plain_write_records(const u16 *sig, size_t len, u8 *room, size_t room_len, u64 out[2]);
u16 plain_tags_to_signature(u16 kind, const u8 *bytes, size_t len, u16 *room, size_t room_len, u64 out[2]);
u16 plain_signature_to_tags(u16 kind, const u16 *sig, size_t len, u8 *room, size_t room_len, u64 out[2]);

/* What a turn with a twig judges first: the twig's whole check, then the signature's length. */
static inline u16 given(size_t len, const u16 *twig, size_t twig_len, u64 *entry)
{
    u16 number = plain_whole(1, twig, twig_len, entry);
    if (number)
        return number;
    return len == 0 || len % 4 ? 1 : len / 4 > MOST_DATA ? 7 : 0;
}

/* What a turn hands out; the refusal's number. */
static inline u16 told(u64 out[3], u16 stop, u64 steps, u64 entry, u16 number)
{
    out[0] = stop;
    out[1] = steps;
    out[2] = entry;
    return number;
}

/* What a row's work came to: a sum over all that its calls gave and left, taken only while both sides are compared, and the number of units (steps,
 * answers) that its time is shared by. */
typedef struct {
    int comparing;
    u64 sum, units;
} Left;

/* A row of the table: one piece of work, done by either side. `argument` is the axis, or the most steps of a turn. */
typedef struct {
    const char *name, *unit;
    void (*work)(const Calls *with, int argument, Left *left);
    int argument, grows;
} Row;

extern const Row rows[];
extern const int row_count;

/* Everything that the rows read, for trees of n elements: an uneven, an even and a broad menu and a chain; the uneven menu as tags and as records; every
 * rank as a context; and three twigs of sixteen nodes, a root with fifteen children, a chain whose last name no element has, and one whose first name none
 * has. */
typedef struct {
    int n;
    u16 menu[4 * MOST_DATA], even[4 * MOST_DATA], broad[4 * MOST_DATA], chain[4 * MOST_DATA];
    u8 tags[6 * MOST_DATA], records[10 * MOST_DATA];
    u16 everyone[MOST_DATA];
    u16 wide[4 * MOST_TWIG], deep[4 * MOST_TWIG], late[4 * MOST_TWIG];
} Inputs;

extern Inputs inputs;
void make_inputs(int n);

#endif
