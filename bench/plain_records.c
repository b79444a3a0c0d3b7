/* Signature records and tag lists in plain C. A refused call writes nothing, so readers build beside the room and copy. */
#include "bench.h"

static inline u16 two(const u8 *bytes) { return (u16)(bytes[0] | bytes[1] << 8); }

static inline u8 *put(u8 *to, u16 x)
{
    to[0] = (u8)x;
    to[1] = (u8)(x >> 8);
    return to + 2;
}

u16 plain_read_records(const u8 *bytes, size_t len, u16 *room, size_t room_len, u64 out[2])
{
    u64 n = 0;
    out[0] = out[1] = 0;
    if (len == 0)
        return 1;
    for (size_t at = 0; at < len; at += 10) {
        if (len - at < 2)
            return 1;
        if (bytes[at] != 'S' || bytes[at + 1] != 'E')
            return 2;
        if (len - at < 10)
            return 1;
        if (two(bytes + at + 2) == 0)
            return 3;
        if (++n > MOST_DATA)
            return 7;
    }
    if (room_len < 4 * n)
        return 10;
    for (u64 i = 0; i < n; i++)
        for (u64 k = 0; k < 4; k++)
            room[4 * i + k] = two(bytes + 10 * i + 2 + 2 * k);
    out[0] = 4 * n;
    return 0;
}

u16 plain_write_records(const u16 *sig, size_t len, u8 *room, size_t room_len, u64 out[2])
{
    u64 n = len / 4;
    out[0] = out[1] = 0;
    if (len == 0 || len % 4)
        return 1;
    if (n > MOST_DATA)
        return 7;
    for (u64 i = 0; i < n; i++)
        if (sig[4 * i] == 0)
            return 3;
    if (room_len < 10 * n)
        return 10;
    for (u64 i = 0; i < n; i++) {
        *room++ = 'S';
        *room++ = 'E';
        for (u64 k = 0; k < 4; k++)
            room = put(room, sig[4 * i + k]);
    }
    out[0] = 10 * n;
    return 0;
}

typedef struct {
    u32 n, top, closed, most;
    int any_name;
} Reading;

/* Opens an element whose four bytes are there: the refusal, or 0. */
static inline u16 open_element(Reading *reading, u16 *sig, u16 name)
{
    if (name == 0 && !reading->any_name)
        return 3;
    if (reading->n && reading->top == 0)
        return 12;
    if (reading->n == reading->most)
        return 7;
    sig[4 * reading->n] = name;
    sig[4 * reading->n + 3] = (u16)reading->top;
    reading->top = ++reading->n;
    return 0;
}

static inline u16 close_element(Reading *reading, u16 *sig)
{
    u16 *entry = sig + 4 * (reading->top - 1);
    if (reading->top == 0)
        return 12;
    entry[1] = (u16)++reading->closed;
    entry[2] = (u16)(reading->n + 1);
    reading->top = entry[3];
    return 0;
}

u16 plain_tags_to_signature(u16 kind, const u8 *bytes, size_t len, u16 *room, size_t room_len, u64 out[2])
{
    u16 sig[4 * MOST_DATA], number = 0;
    Reading reading = {0, 0, 0, kind == IB_DATA ? MOST_DATA : MOST_TWIG, kind != IB_DATA};
    size_t at = 0;
    out[0] = out[1] = 0;
    if (len == 0)
        return 1;
    while (at < len && number == 0) {
        if (len - at < 2)
            return 1;
        if (bytes[at] == 'O' && bytes[at + 1] == 'P') {
            if (len - at < 4)
                return 1;
            number = open_element(&reading, sig, two(bytes + at + 2));
            at += 4;
        } else if (bytes[at] == 'C' && bytes[at + 1] == 'L') {
            number = close_element(&reading, sig);
            at += 2;
        } else {
            return 2;
        }
    }
    if (number || reading.top)
        return number ? number : 12;
    if (room_len < 4 * reading.n)
        return 10;
    __builtin_memcpy(room, sig, 8 * reading.n);
    out[0] = 4 * reading.n;
    return 0;
}

u16 plain_signature_to_tags(u16 kind, const u16 *sig, size_t len, u8 *room, size_t room_len, u64 out[2])
{
    u32 n = (u32)(len / 4), top = 0;
    u16 number = plain_whole(kind != IB_DATA, sig, len, &out[1]);
    out[0] = 0;
    if (number)
        return number;
    if (room_len < 6 * n)
        return 10;
    for (u32 i = 1; i <= n + 1; i++) {
        for (; top && sig[4 * (top - 1) + 2] == i; top = sig[4 * (top - 1) + 3]) {
            *room++ = 'C';
            *room++ = 'L';
        }
        if (i > n)
            break;
        *room++ = 'O';
        *room++ = 'P';
        room = put(room, sig[4 * (i - 1)]);
        top = i;
    }
    out[0] = 6 * n;
    return 0;
}

const Calls library = {
    ib_read_records, ib_write_records, ib_tags_to_signature, ib_signature_to_tags, ib_check_turn, ib_level, ib_block_place, ib_axis,
    ib_ordered_next, ib_fits_turn, ib_prepare_start, ib_prepare_turn, ib_walk_fresh, ib_walk_turn,
};

const Calls plain = {
    plain_read_records, plain_write_records, plain_tags_to_signature, plain_signature_to_tags, plain_check_turn, plain_level, plain_block_place, plain_axis,
    plain_ordered_next, plain_fits_turn, plain_prepare_start, plain_prepare_turn, plain_walk_fresh, plain_walk_turn,
};
