/* Cases of the calls that read and write records and tag lists. */
#include "make.h"

static Tree tree;

static void put_byte(List *to, u64 byte)
{
    to->at[to->len++] = (u16)(byte & 255);
}

static void put_number(List *to, u16 x)
{
    put_byte(to, x);
    put_byte(to, (u64)x >> 8);
}

static void put_tags(List *to, const Node *node)
{
    put_byte(to, 'O');
    put_byte(to, 'P');
    put_number(to, node->name);
    for (const Node *child = node->first; child; child = child->next)
        put_tags(to, child);
    put_byte(to, 'C');
    put_byte(to, 'L');
}

static int random_names(void)
{
    return one_in(3) ? 65535 : 3;
}

void make_read_records(Case *c)
{
    static u16 sig[4 * MOST_NODES];
    random_tree(&tree, random_size(), random_names());
    signature_of(&tree, sig);
    c->call = READ_RECORDS;
    c->sig.len = 0;
    for (int i = 0; i < 4 * tree.size; i++) {
        if (i % 4 == 0) {
            put_byte(&c->sig, 'S');
            put_byte(&c->sig, 'E');
        }
        put_number(&c->sig, i % 4 > 0 && one_in(4) ? (u16)any_number() : sig[i]);
    }
    if (one_in(2))
        damage_bytes(&c->sig);
    fit_room(c, c->sig.len);
    run_case(c);
}

void make_write_records(Case *c)
{
    random_tree(&tree, random_size(), random_names());
    c->call = WRITE_RECORDS;
    list_of_tree(&c->sig, &tree);
    if (one_in(2))
        damage_numbers(&c->sig);
    fit_room(c, 10 * (c->sig.len / 4));
    run_case(c);
}

void make_tags_to_signature(Case *c)
{
    int twig = one_in(3);
    random_tree(&tree, twig ? random_twig_size() : random_size(), random_names());
    if (one_in(twig ? 2 : 10))
        twig_names(&tree);
    c->call = TAGS_TO_SIGNATURE;
    c->number[0] = random_kind(twig);
    c->sig.len = 0;
    put_tags(&c->sig, &tree.node[0]);
    if (one_in(2))
        damage_bytes(&c->sig);
    fit_room(c, c->sig.len);
    run_case(c);
}

void make_signature_to_tags(Case *c)
{
    int twig = one_in(3);
    random_tree(&tree, twig ? random_twig_size() : random_size(), random_names());
    if (twig)
        twig_names(&tree);
    c->call = SIGNATURE_TO_TAGS;
    c->number[0] = random_kind(twig);
    list_of_tree(&c->sig, &tree);
    if (one_in(3))
        damage_numbers(&c->sig);
    fit_room(c, 6 * (c->sig.len / 4));
    run_case(c);
}
