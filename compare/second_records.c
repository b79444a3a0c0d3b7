/* Marked records and tag lists. Every call builds its whole result beside the room first, and copies it over only if it works. */
#include "second.h"

typedef struct {
    const u8 *bytes;
    size_t len, at;
} Reader;

static size_t left(const Reader *r)
{
    return r->len - r->at;
}

static int marked(const Reader *r, char first, char second)
{
    return r->bytes[r->at] == (u8)first && r->bytes[r->at + 1] == (u8)second;
}

static u16 two_bytes(const Reader *r, size_t from)
{
    return (u16)(r->bytes[r->at + from] | r->bytes[r->at + from + 1] << 8);
}

static u16 answer(u64 *out, u16 number, u64 length, u64 entry)
{
    out[0] = number ? 0 : length;
    out[1] = entry;
    return number;
}

static u16 hand_numbers(const u16 *result, size_t length, u16 *room, size_t room_len, u64 *out)
{
    if (length > room_len)
        return answer(out, 10, 0, 0);
    for (size_t i = 0; i < length; i++)
        room[i] = result[i];
    return answer(out, 0, length, 0);
}

static u16 hand_bytes(const u8 *result, size_t length, u8 *room, size_t room_len, u64 *out)
{
    if (length > room_len)
        return answer(out, 10, 0, 0);
    for (size_t i = 0; i < length; i++)
        room[i] = result[i];
    return answer(out, 0, length, 0);
}

u16 second_read_records(const u8 *bytes, size_t bytes_len, u16 *room, size_t room_len, u64 *out)
{
    static u16 result[4 * MOST_NODES];
    Reader r = {bytes, bytes_len, 0};
    size_t entries = 0;
    if (bytes_len == 0)
        return answer(out, 1, 0, 0);
    for (; left(&r) > 0; r.at += 10, entries++) {
        if (left(&r) < 2)
            return answer(out, 1, 0, 0);
        if (!marked(&r, 'S', 'E'))
            return answer(out, 2, 0, 0);
        if (left(&r) < 10)
            return answer(out, 1, 0, 0);
        if (two_bytes(&r, 2) == 0)
            return answer(out, 3, 0, 0);
        if (entries == MOST_DATA)
            return answer(out, 7, 0, 0);
        for (int k = 0; k < 4; k++)
            result[4 * entries + (size_t)k] = two_bytes(&r, 2 + 2 * (size_t)k);
    }
    return hand_numbers(result, 4 * entries, room, room_len, out);
}

static u8 *put_record(u8 *to, const char *mark, const u16 *numbers, int count)
{
    *to++ = (u8)mark[0];
    *to++ = (u8)mark[1];
    for (int k = 0; k < count; k++) {
        *to++ = (u8)(numbers[k] & 255);
        *to++ = (u8)(numbers[k] >> 8);
    }
    return to;
}

u16 second_write_records(const u16 *sig, size_t sig_len, u8 *room, size_t room_len, u64 *out)
{
    static u8 result[10 * MOST_NODES];
    u8 *to = result;
    u16 number = length_number(sig_len, MOST_DATA);
    if (number)
        return answer(out, number, 0, 0);
    for (size_t i = 0; i < sig_len; i += 4) {
        if (sig[i] == 0)
            return answer(out, 3, 0, 0);
        to = put_record(to, "SE", sig + i, 4);
    }
    return hand_bytes(result, (size_t)(to - result), room, room_len, out);
}

/* Opens and closes elements of an explicit tree as the records say; `now` is the innermost open element. */
static u16 build(int twig, Reader r, Tree *tree)
{
    Node *now = 0;
    tree->size = 0;
    if (r.len == 0)
        return 1;
    while (left(&r) > 0) {
        if (left(&r) < 2)
            return 1;
        int opens = marked(&r, 'O', 'P');
        if (!opens && !marked(&r, 'C', 'L'))
            return 2;
        if (opens && left(&r) < 4)
            return 1;
        u16 name = opens ? two_bytes(&r, 2) : 0;
        if (opens && name == 0 && !twig)
            return 3;
        if (now == 0 && (tree->size > 0 || !opens))
            return 12;
        if (opens && tree->size == (twig ? MOST_TWIG : MOST_DATA))
            return 7;
        if (!opens)
            now = now->parent;
        else if (tree->size > 0)
            now = add_child(tree, now, name);
        else {
            begin_tree(tree, name);
            now = &tree->node[0];
        }
        r.at += opens ? 4 : 2;
    }
    return now ? 12 : 0;
}

u16 second_tags_to_signature(u16 kind, const u8 *bytes, size_t bytes_len, u16 *room, size_t room_len, u64 *out)
{
    static Tree tree;
    static u16 result[4 * MOST_NODES];
    Reader r = {bytes, bytes_len, 0};
    u16 number = build(kind != 0, r, &tree);
    if (number)
        return answer(out, number, 0, 0);
    number_tree(&tree);
    signature_of(&tree, result);
    return hand_numbers(result, 4 * (size_t)tree.size, room, room_len, out);
}

static u8 *put_tags(u8 *to, const Node *node)
{
    to = put_record(to, "OP", &node->name, 1);
    for (const Node *child = node->first; child; child = child->next)
        to = put_tags(to, child);
    return put_record(to, "CL", 0, 0);
}

u16 second_signature_to_tags(u16 kind, const u16 *sig, size_t sig_len, u8 *room, size_t room_len, u64 *out)
{
    static Tree tree;
    static u8 result[6 * MOST_NODES];
    Fault fault = whole_fault(kind != 0, sig, sig_len, &tree);
    if (fault.number)
        return answer(out, fault.number, 0, fault.entry);
    return hand_bytes(result, (size_t)(put_tags(result, &tree.node[0]) - result), room, room_len, out);
}
