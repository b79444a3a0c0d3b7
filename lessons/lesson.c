/* lessons N: runs lesson N. What all lessons share stands here too. */
#include "lesson.h"

u16 table[128];

static const struct {
    const char *title;
    void (*run)(void);
} lessons[] = {
    {"The pointer that lied", lesson_pointer},
    {"The filling beside the tart", lesson_tart},
    {"The run that nobody can stop", lesson_run},
    {"Only neighbours in the twig", lesson_neighbours},
    {"A rank below is not an open element", lesson_open},
    {"A dish served twice", lesson_twice},
    {"Half a match", lesson_half},
    {"The screen that sits there", lesson_sits},
};

void say_menu(const char *what, const u16 *sig, int n)
{
    printf("%s", what);
    for (int i = 0; i < n; i++)
        printf("%s %d,%d,%d,%d", i ? ";" : "", sig[4 * i], sig[4 * i + 1], sig[4 * i + 2], sig[4 * i + 3]);
    printf("\n");
}

void say_ranks(const char *who, const u16 *ranks, u64 count)
{
    printf("%s", who);
    for (u64 i = 0; i < count; i++)
        printf(" %d", ranks[i]);
    printf("%s\n", count ? "" : " none");
}

void say_refusal(const char *who, u16 number, u64 entry)
{
    if (number == 0)
        printf("%s accepted\n", who);
    else if (entry)
        printf("%s refused %d at entry %d\n", who, number, (int)entry);
    else
        printf("%s refused %d\n", who, number);
}

void prepare(const u16 *menu, int n, const u16 *twig, int m)
{
    u64 fresh[1], out[3];
    u16 state[1];
    ib_prepare_start((u64)n, table, 128, fresh);
    state[0] = (u16)fresh[0];
    ib_prepare_turn(menu, 4 * (size_t)n, twig, 4 * (size_t)m, table, 128, state, (u64)n, out);
}

int say_answers(const u16 *menu, int n, const u16 *twig, int m)
{
    u16 state[19];
    u64 out[3];
    int answers = 0;
    prepare(menu, n, twig, m);
    ib_walk_fresh(state);
    for (;;) {
        ib_walk_turn(menu, 4 * (size_t)n, twig, 4 * (size_t)m, table, 128, state, 1000, out);
        if (out[0] != IB_ANSWER)
            return answers;
        answers++;
        say_ranks("  ours, loose:", state, (u64)m);
    }
}

int main(int count, char **arguments)
{
    int which = count == 2 ? arguments[1][0] - '0' : 0;
    if (which < 1 || which > 8 || arguments[1][1])
        return 2;
    printf("Lesson %d. %s\n", which, lessons[which - 1].title);
    lessons[which - 1].run();
    return 0;
}
