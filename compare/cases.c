/* Running a case twice and comparing all that it leaves. */
#include "cases.h"
#include "calls.h"

#define R(n) (1u << (n))
#define CHECKED (R(1) | R(3) | R(4) | R(5) | R(6) | R(7))
#define TURNED (R(1) | R(4) | R(5) | R(6) | R(7) | R(9) | R(10) | R(11))

const Shape shapes[CALLS] = {
    {"ib_read_records", LINKED_RECORDS, 0, 1, 0, 0, 2, R(0) | R(1) | R(2) | R(3) | R(7) | R(10)},
    {"ib_write_records", LINKED_RECORDS, 0, 0, 1, 0, 2, R(0) | R(1) | R(3) | R(7) | R(10)},
    {"ib_tags_to_signature", LINKED_TAGS, 1, 1, 0, 0, 2, R(0) | R(1) | R(2) | R(3) | R(7) | R(10) | R(12)},
    {"ib_signature_to_tags", LINKED_TAGS, 1, 0, 1, 0, 2, R(0) | CHECKED | R(10)},
    {"ib_check_turn", LINKED_CHECK, 2, 0, 0, 3, 3, R(0) | CHECKED | R(9)},
    {"ib_level", LINKED_AXES, 1, 0, 0, 0, 2, R(0) | CHECKED | R(8)},
    {"ib_block_place", LINKED_AXES, 1, 0, 0, 0, 3, R(0) | CHECKED | R(8)},
    {"ib_axis", LINKED_AXES, 3, 0, 0, 0, 2, R(0) | CHECKED | R(8) | R(10)},
    {"ib_ordered_next", LINKED_ORDERED, 0, 0, 0, 0, 2, R(0) | CHECKED | R(8) | R(10)},
    {"ib_fits_turn", LINKED_FITS, 1, 0, 0, 3, 3, R(0) | TURNED},
    {"ib_prepare_start", LINKED_PREPARE, 1, 0, 0, 0, 1, R(0) | R(1) | R(7) | R(10)},
    {"ib_prepare_turn", LINKED_PREPARE, 1, 0, 0, 1, 3, R(0) | TURNED},
    {"ib_walk_fresh", LINKED_WALK, 0, 0, 0, 19, 0, R(0)},
    {"ib_walk_turn", LINKED_WALK, 1, 0, 0, 19, 3, R(0) | TURNED},
};

u64 differences;
u64 met[CALLS][REFUSALS + 1];
u64 stops[CALLS][4];
Came came;

/* Memory that is lent: guards on both sides of each list. */
enum { GUARDS = 8, LENT = 2 * (LONGEST + 2 * GUARDS) };

typedef struct {
    size_t size;                    /* in bytes, guards counted */
    _Alignas(8) u8 byte[LENT];
} Lent;

typedef struct {
    Lent sig, twig, more, room, state, out;
    Lents at;
    u16 number;
} Run;

static Run library, second;

/* Lends a list of so many numbers of so many bytes each, and gives the place of the first. */
static void *lend(Lent *lent, const u16 *from, size_t len, size_t wide)
{
    size_t front = GUARDS * wide;
    lent->size = 2 * front + len * wide;
    for (size_t i = 0; i < front; i++)
        lent->byte[i] = lent->byte[front + len * wide + i] = (u8)(0xA5 + 7 * i);
    for (size_t i = 0; i < len; i++) {
        u8 *to = lent->byte + front + i * wide;
        to[0] = (u8)from[i];
        if (wide == 2)
            to[1] = (u8)(from[i] >> 8);
    }
    return lent->byte + front;
}

static void lend_all(Run *run, const Case *given)
{
    static const u16 filler[64];
    const Shape *shape = &shapes[given->call];
    run->at.sig = lend(&run->sig, given->sig.at, given->sig.len, shape->bytes_in ? 1 : 2);
    run->at.sig_len = given->sig.len;
    run->at.twig = lend(&run->twig, given->twig.at, given->twig.len, 2);
    run->at.twig_len = given->twig.len;
    run->at.more = lend(&run->more, given->more.at, given->more.len, 2);
    run->at.more_len = given->more.len;
    run->at.room = lend(&run->room, given->room.at, given->room.len, shape->bytes_out ? 1 : 2);
    run->at.room_len = given->room.len;
    run->at.state = lend(&run->state, given->state, (size_t)shape->state, 2);
    u64 *out = lend(&run->out, filler, 4 * (size_t)shape->outs, 2);
    for (int i = 0; i < shape->outs; i++)
        out[i] = 0xDEADBEEFDEADBEEFu;
    run->at.out = out;
}

static int same_memory(const Lent *a, const Lent *b)
{
    if (a->size != b->size)
        return 0;
    for (size_t i = 0; i < a->size; i++)
        if (a->byte[i] != b->byte[i])
            return 0;
    return 1;
}

static const char *first_difference(void)
{
    if (library.number != second.number)
        return "the number returned";
    if (!same_memory(&library.out, &second.out))
        return "out";
    if (!same_memory(&library.state, &second.state))
        return "the state";
    if (!same_memory(&library.room, &second.room))
        return "the room";
    if (!same_memory(&library.sig, &second.sig) || !same_memory(&library.twig, &second.twig) || !same_memory(&library.more, &second.more))
        return "what was lent to be read";
    return 0;
}

static void note(const Case *given, u16 number, const u64 *out, int outs)
{
    came.number = number;
    for (int i = 0; i < MOST_OUT; i++)
        came.out[i] = i < outs ? out[i] : 0;
    (void)given;
}

static void say_difference(const Case *given, const char *where)
{
    const Shape *shape = &shapes[given->call];
    if (++differences > 3)
        return;
    say("differs in ");
    say(where);
    say(": the library returned ");
    say_number(library.number);
    say(" and the second program ");
    say_number(second.number);
    for (int i = 0; i < shape->outs; i++) {
        say(i == 0 ? ", out " : "; ");
        say_number(library.at.out[i]);
        say(" and ");
        say_number(second.at.out[i]);
    }
    say("\n");
    say_case(given);
}

void run_case(Case *given)
{
    const Shape *shape = &shapes[given->call];
    lend_all(&second, given);
    second.number = call_second(given->call, given->number, &second.at);
    if (shape->linked) {
        lend_all(&library, given);
        library.number = call_library(given->call, given->number, &library.at);
        const char *where = first_difference();
        if (where)
            say_difference(given, where);
    }
    note(given, second.number, second.at.out, shape->outs);
    met[given->call][second.number]++;
    if (shape->state && shape->outs)
        stops[given->call][second.at.out[0]]++;
    for (int i = 0; i < shape->state; i++)
        given->state[i] = second.at.state[i];
    for (size_t i = 0; i < given->room.len && !shape->bytes_out; i++)
        given->room.at[i] = ((u16 *)second.at.room)[i];
}

Came second_of(const Case *given)
{
    lend_all(&second, given);
    u16 number = call_second(given->call, given->number, &second.at);
    note(given, number, second.at.out, shapes[given->call].outs);
    return came;
}
