/* Cases as text, one line for each part: said where one differs, and read back from compare/kept/. */
#include "cases.h"

static void say_list(const char *name, const u16 *at, size_t len)
{
    say(name);
    for (size_t i = 0; i < len; i++) {
        say(" ");
        say_number(at[i]);
    }
    say("\n");
}

void say_case(const Case *given)
{
    const Shape *shape = &shapes[given->call];
    say("call ");
    say(shape->name);
    say("\nnumbers");
    for (int i = 0; i < shape->numbers; i++) {
        say(" ");
        say_number(given->number[i]);
    }
    say("\n");
    say_list("sig", given->sig.at, given->sig.len);
    say_list("twig", given->twig.at, given->twig.len);
    say_list("more", given->more.at, given->more.len);
    say_list("room", given->room.at, given->room.len);
    say_list("state", given->state, (size_t)shape->state);
    say("end\n");
}

static const char *text;

/* The next word of the line, 0 at its end. */
static int next_word(char *word, int most)
{
    int length = 0;
    while (*text == ' ')
        text++;
    while (*text && *text != ' ' && *text != '\n' && length < most - 1)
        word[length++] = *text++;
    word[length] = 0;
    return length;
}

static size_t read_numbers(u64 *to, size_t most)
{
    char word[32];
    size_t count = 0;
    while (next_word(word, sizeof word) && count < most)
        to[count++] = number_of(word);
    return count;
}

static void read_list(List *to)
{
    static u64 numbers[LONGEST];
    to->len = read_numbers(numbers, LONGEST);
    for (size_t i = 0; i < to->len; i++)
        to->at[i] = (u16)numbers[i];
}

static int call_named(const char *name)
{
    for (int call = 0; call < CALLS; call++)
        if (same_text(shapes[call].name, name))
            return call;
    return -1;
}

static void read_part(const char *word, Case *to)
{
    u64 state[MOST_STATE];
    if (same_text(word, "numbers"))
        read_numbers(to->number, 3);
    if (same_text(word, "sig"))
        read_list(&to->sig);
    if (same_text(word, "twig"))
        read_list(&to->twig);
    if (same_text(word, "more"))
        read_list(&to->more);
    if (same_text(word, "room"))
        read_list(&to->room);
    if (same_text(word, "state")) {
        size_t count = read_numbers(state, MOST_STATE);
        for (size_t i = 0; i < count; i++)
            to->state[i] = (u16)state[i];
    }
}

int read_case(const char *path, Case *to)
{
    static char file[1 << 20];
    char word[32];
    long length = whole_file(path, file, sizeof file - 1);
    if (length < 0)
        return 0;
    file[length] = 0;
    text = file;
    to->call = -1;
    while (*text) {
        next_word(word, sizeof word);
        if (same_text(word, "call")) {
            next_word(word, sizeof word);
            to->call = call_named(word);
        } else
            read_part(word, to);
        while (*text && *text != '\n')
            text++;
        if (*text)
            text++;
    }
    return to->call >= 0;
}
