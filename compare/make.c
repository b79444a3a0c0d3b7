/* What the makers of cases share. */
#include "make.h"

int random_size(void)
{
    u64 r = below_number(1000);
    if (r < 4)
        return (int)between(MOST_DATA - 1, MOST_DATA + 1);
    if (r < 40)
        return (int)between(30, 200);
    return (int)between(1, r < 300 ? 30 : 9);
}

int random_twig_size(void)
{
    u64 r = below_number(40);
    return (int)(r == 0 ? between(15, 17) : r < 8 ? between(5, 16) : between(1, 4));
}

void twig_names(Tree *twig)
{
    for (int i = 0; i < twig->size; i++)
        if (one_in(3))
            twig->node[i].name = 0;
}

void list_of_tree(List *to, const Tree *tree)
{
    signature_of(tree, to->at);
    to->len = 4 * (size_t)tree->size;
}

u16 nearby(u16 x, u64 n)
{
    switch (below_number(6)) {
    case 0: return 0;
    case 1: return (u16)(x + 1);
    case 2: return (u16)(x - 1);
    case 3: return (u16)below_number(n + 3);
    case 4: return (u16)(n + between(0, 2));
    default: return (u16)any_number();
    }
}

/* One to three numbers changed or exchanged; at times the length. */
void damage_numbers(List *list)
{
    size_t n = list->len / 4;
    for (u64 times = between(1, 3); times > 0 && list->len > 0; times--) {
        size_t at = below_number(list->len), other = below_number(list->len);
        if (one_in(4)) {
            u16 kept = list->at[at];
            list->at[at] = list->at[other];
            list->at[other] = kept;
        } else
            list->at[at] = nearby(list->at[at], n);
        if (one_in(3))
            break;
    }
    if (one_in(8))
        list->len -= list->len < 4 ? list->len : below_number(4);
    if (one_in(30))
        list->len = 0;
    if (one_in(60))
        list->len = 4 * (MOST_DATA + 1);
}

static void put_mark(List *list, size_t at)
{
    const char *marks = "OPCLSE";
    size_t which = 2 * below_number(3);
    if (at + 1 < list->len) {
        list->at[at] = (u16)marks[which];
        list->at[at + 1] = (u16)marks[which + 1];
    }
}

static void take_out(List *list, size_t at, size_t count)
{
    for (size_t i = at; i + count < list->len; i++)
        list->at[i] = list->at[i + count];
    list->len -= count < list->len - at ? count : list->len - at;
}

/* A byte changed, bytes taken out, the tail cut or repeated, a mark or a name of 0 put somewhere. */
void damage_bytes(List *list)
{
    size_t at = list->len ? below_number(list->len) : 0;
    size_t even = at - at % 2;
    if (list->len == 0)
        return;
    switch (below_number(8)) {
    case 0: list->at[at] = (u16)below_number(256); break;
    case 1: take_out(list, at, between(1, 2)); break;
    case 2: take_out(list, even, 2 * between(1, 3)); break;
    case 3: list->len -= between(1, list->len < 7 ? list->len : 7); break;
    case 4: put_mark(list, even); break;
    case 5:
        if (even + 1 < list->len)
            list->at[even] = list->at[even + 1] = 0;
        break;
    case 6:
        for (u64 more = between(1, 10); more > 0; more--, list->len++)
            list->at[list->len] = list->at[list->len - at - 1];
        break;
    default:
        list->at[list->len++] = 'O';
        list->at[list->len++] = 'P';
        list->at[list->len++] = (u16)below_number(2);
        if (!one_in(3))
            list->at[list->len++] = (u16)below_number(2);
    }
    if (one_in(40))
        list->len = 0;
}

/* The greatest budget, one whose low bits alone would pay for nothing, or any. */
static u64 great_budget(void)
{
    u64 r = below_number(3);
    return r == 0 ? ~(u64)0 : r == 1 ? (u64)1 << between(16, 63) : any_number();
}

u64 random_budget(u64 usual)
{
    u64 r = below_number(12);
    return r == 0 ? 0 : r == 1 ? great_budget() : r == 2 ? 1 : between(1, usual);
}

u16 random_kind(int twig)
{
    return (u16)(!twig ? 0 : one_in(4) ? between(2, 65535) : 1);
}

void random_room(Case *c, size_t len)
{
    c->room.len = len;
    for (size_t i = 0; i < len; i++)
        c->room.at[i] = (u16)(shapes[c->call].bytes_out ? below_number(256) : any_number());
}

void fit_room(Case *c, size_t most)
{
    c->room.len = most;
    Came would = second_of(c);
    size_t length = would.number == 0 ? would.out[0] : below_number(9);
    u64 r = below_number(8);
    if (r == 0 || r == 1)
        length -= length > 0;
    if (r == 2 || r == 3)
        length += between(1, 9);
    if (r == 4)
        length = below_number(length + 1);
    random_room(c, length);
}
