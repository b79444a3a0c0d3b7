/* Printing, random numbers, files. */
#include "base.h"

long read(int file, void *to, size_t count);
long write(int file, const void *from, size_t count);
int open(const char *path, int flags, ...);
int close(int file);
void exit(int status) __attribute__((noreturn));

static char line[8192];
static size_t used;

void flush(void)
{
    size_t at = 0;
    while (at < used) {
        long wrote = write(1, line + at, used - at);
        if (wrote <= 0)
            break;
        at += (size_t)wrote;
    }
    used = 0;
}

static void say_byte(char byte)
{
    if (used == sizeof line)
        flush();
    line[used++] = byte;
}

void say(const char *text)
{
    while (*text)
        say_byte(*text++);
}

void say_number(u64 x)
{
    char digits[20];
    int count = 0;
    do
        digits[count++] = (char)('0' + x % 10);
    while ((x /= 10) != 0);
    while (count > 0)
        say_byte(digits[--count]);
}

void give_up(const char *why)
{
    say(why);
    say("\n");
    flush();
    exit(1);
}

/* The generator splitmix64, by its published constants. */
static u64 random_state;

void seed_with(u64 seed)
{
    random_state = seed;
}

u64 any_number(void)
{
    u64 z = (random_state += 0x9E3779B97F4A7C15u);
    z = (z ^ (z >> 30)) * 0xBF58476D1CE4E5B9u;
    z = (z ^ (z >> 27)) * 0x94D049BB133111EBu;
    return z ^ (z >> 31);
}

u64 below_number(u64 bound)
{
    return any_number() % bound;
}

u64 between(u64 low, u64 high)
{
    return low + below_number(high - low + 1);
}

int one_in(u64 chances)
{
    return below_number(chances) == 0;
}

long whole_file(const char *path, char *to, long most)
{
    int file = open(path, 0);
    if (file < 0)
        return -1;
    long length = 0;
    while (length < most) {
        long got = read(file, to + length, (size_t)(most - length));
        if (got <= 0)
            break;
        length += got;
    }
    close(file);
    return length;
}

u64 number_of(const char *text)
{
    u64 x = 0;
    for (; *text >= '0' && *text <= '9'; text++)
        x = 10 * x + (u64)(*text - '0');
    return x;
}

int same_text(const char *a, const char *b)
{
    while (*a && *a == *b) {
        a++;
        b++;
    }
    return *a == *b;
}
