/* compare SEED CASES [FILE..]: runs each kept case, then random cases from the seed until there are that many, then tells what was met. It ends with
 * status 1 on a difference, and where a call or a refusal number that can be met was not. */
#include "calls.h"
#include "make.h"

typedef struct {
    int call;                   /* the maker is used where this call is linked */
    void (*make)(Case *c);
} Maker;

static const Maker makers[] = {
    {READ_RECORDS, make_read_records}, {WRITE_RECORDS, make_write_records}, {TAGS_TO_SIGNATURE, make_tags_to_signature},
    {SIGNATURE_TO_TAGS, make_signature_to_tags}, {CHECK_TURN, make_check}, {LEVEL, make_level}, {BLOCK_PLACE, make_block_place},
    {AXIS, make_axis}, {AXIS, make_axis}, {ORDERED_NEXT, make_ordered}, {ORDERED_NEXT, whole_ordered}, {FITS_TURN, make_fits},
    {FITS_TURN, whole_fits}, {PREPARE_TURN, make_loose}, {WALK_TURN, make_walk_state}, {WALK_TURN, whole_loose},
};
enum { MAKERS = sizeof makers / sizeof makers[0] };

static u64 cases_of(int call)
{
    u64 sum = 0;
    for (int r = 0; r <= REFUSALS; r++)
        sum += met[call][r];
    return sum;
}

static u64 cases_run(void)
{
    u64 sum = 0;
    for (int call = 0; call < CALLS; call++)
        sum += shapes[call].linked ? cases_of(call) : 0;
    return sum;
}

static int say_call(int call)
{
    int missing = 0;
    say(shapes[call].name);
    if (!shapes[call].linked) {
        say(": not linked, not compared\n");
        return 0;
    }
    say(": ");
    say_number(cases_of(call));
    say(" cases, worked ");
    say_number(met[call][0]);
    for (int r = 0; r <= REFUSALS; r++) {
        int can = shapes[call].refusals >> r & 1;
        if (r > 0 && (can || met[call][r])) {
            say(", refused ");
            say_number((u64)r);
            say(": ");
            say_number(met[call][r]);
        }
        missing += can != (met[call][r] > 0);
    }
    if (shapes[call].state && shapes[call].outs)
        for (int stop = 0; stop < 4; stop++) {
            static const char *names[] = {"; stopped by answer ", ", end ", ", budget ", ", refusal "};
            say(names[stop]);
            say_number(stops[call][stop]);
            missing += stops[call][stop] == 0 && (stop > 0 || call == WALK_TURN || call == FITS_TURN);
        }
    say(missing ? "  MISSING\n" : "\n");
    return missing;
}

static int say_all(u64 seed)
{
    int missing = 0;
    for (int call = 0; call < CALLS; call++)
        missing += say_call(call);
    say("by refusal number:");
    for (int r = 1; r <= REFUSALS; r++) {
        u64 sum = 0;
        for (int call = 0; call < CALLS; call++)
            sum += shapes[call].linked ? met[call][r] : 0;
        say(r == 1 ? " " : ", ");
        say_number((u64)r);
        say(": ");
        say_number(sum);
    }
    say("\nseed ");
    say_number(seed);
    say(": ");
    say_number(cases_run());
    say(" cases, ");
    say_number(differences);
    say(missing ? " differences, something that can be met was not\n" : " differences\n");
    return missing;
}

int main(int argc, char **argv)
{
    static Case c;
    if (argc < 3)
        give_up("usage: compare SEED CASES [FILE..]");
    u64 seed = number_of(argv[1]), wanted = number_of(argv[2]);
    seed_with(seed);
    for (int i = 3; i < argc; i++) {
        if (!read_case(argv[i], &c))
            give_up(argv[i]);
        run_case(&c);
    }
    while (cases_run() < wanted && differences == 0) {
        const Maker *maker = &makers[below_number(MAKERS)];
        if (shapes[maker->call].linked)
            maker->make(&c);
    }
    int missing = say_all(seed);
    flush();
    return differences > 0 || missing > 0;
}
