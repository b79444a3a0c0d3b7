/* The menus and questions that are measured. */
#include "bench.h"

Inputs inputs;

/* The generator splitmix64, by its published constants: the same menu at every run. */
static u64 random_state;

static u32 below_number(u32 bound)
{
    u64 z = (random_state += 0x9E3779B97F4A7C15u);
    z = (z ^ (z >> 30)) * 0xBF58476D1CE4E5B9u;
    z = (z ^ (z >> 27)) * 0x94D049BB133111EBu;
    return (u32)((z ^ (z >> 31)) % bound);
}

typedef enum { UNEVEN, EVEN, BROAD } Shape;

/* Whether an element closes before element i opens. On the uneven menu that is chance, to at most twelve levels, and no processor foresees it; on the even
 * one every course has three dishes of one part each; on the broad one every child of the root has one child. */
static int is_closing(Shape shape, int i, int open)
{
    if (open <= 1)
        return 0;
    if (shape == EVEN)
        return open >= ((i - 1) % 7 == 0 ? 2 : (i - 1) % 7 % 2 ? 3 : 4);
    if (shape == BROAD)
        return open > 2 - i % 2;
    return open == 12 || below_number(5) < 2;
}

/* The tag list of a menu with sixteen names; the last element alone has the name 999. */
static size_t make_menu_tags(u8 *to, Shape shape)
{
    size_t at = 0;
    int open = 0;
    random_state = 2009;
    for (int i = 0; i < inputs.n; i++) {
        u16 name = (u16)(i == inputs.n - 1 ? 999 : i == 0 ? 17 : 1 + below_number(16));
        while (is_closing(shape, i, open)) {
            to[at++] = 'C';
            to[at++] = 'L';
            open--;
        }
        to[at++] = 'O';
        to[at++] = 'P';
        to[at++] = (u8)name;
        to[at++] = (u8)(name >> 8);
        open++;
    }
    for (; open; open--) {
        to[at++] = 'C';
        to[at++] = 'L';
    }
    return at;
}

/* A chain of elements, each the only child of the one before. */
static void make_chain(u16 *to, int size, u16 first_name, u16 last_name)
{
    for (int i = 0; i < size; i++) {
        to[4 * i] = i == 0 ? first_name : i == size - 1 ? last_name : 1;
        to[4 * i + 1] = (u16)(size - i);
        to[4 * i + 2] = (u16)(size + 1);
        to[4 * i + 3] = (u16)i;
    }
}

/* A root with fifteen children, names 0 to 14. */
static void make_wide(u16 *to)
{
    for (int i = 0; i < MOST_TWIG; i++) {
        to[4 * i] = (u16)(i ? i - 1 : 1);
        to[4 * i + 1] = (u16)(i ? i : MOST_TWIG);
        to[4 * i + 2] = (u16)(i ? i + 2 : MOST_TWIG + 1);
        to[4 * i + 3] = i ? 1 : 0;
    }
}

void make_inputs(int size)
{
    u64 out[2];
    inputs.n = size;
    plain.tags_to_signature(IB_DATA, inputs.tags, make_menu_tags(inputs.tags, EVEN), inputs.even, 4 * MOST_DATA, out);
    plain.tags_to_signature(IB_DATA, inputs.tags, make_menu_tags(inputs.tags, BROAD), inputs.broad, 4 * MOST_DATA, out);
    plain.tags_to_signature(IB_DATA, inputs.tags, make_menu_tags(inputs.tags, UNEVEN), inputs.menu, 4 * MOST_DATA, out);
    plain.write_records(inputs.menu, 4 * (size_t)inputs.n, inputs.records, sizeof inputs.records, out);
    make_chain(inputs.chain, inputs.n, 1, 1);
    make_chain(inputs.deep, MOST_TWIG, 1, 2);
    make_chain(inputs.late, MOST_TWIG, 2, 1);
    make_wide(inputs.wide);
    for (int i = 0; i < inputs.n; i++)
        inputs.everyone[i] = (u16)(i + 1);
}
