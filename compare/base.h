/* What every file of the comparison uses: numbers, printing and random numbers. It leans on a few functions of the C library and on none of its
 * headers, so that a compiler without headers builds it too. */
#ifndef BASE_H
#define BASE_H
#include <stddef.h>
#include <stdint.h>

typedef uint8_t u8;
typedef uint16_t u16;
typedef uint64_t u64;

enum { MOST_DATA = 4096, MOST_TWIG = 16 };

/* Lines go through one buffer, which flush empties. */
void say(const char *text);
void say_number(u64 x);
void flush(void);

/* Says why and ends with status 1. */
void give_up(const char *why);

/* Random numbers: the same seed gives the same numbers. */
void seed_with(u64 seed);
u64 any_number(void);
u64 below_number(u64 bound);              /* 0 to bound-1 */
u64 between(u64 low, u64 high);           /* low to high */
int one_in(u64 chances);

/* The whole of a file; its length, or -1 where it cannot be read. */
long whole_file(const char *path, char *to, long most);
u64 number_of(const char *text);
int same_text(const char *a, const char *b);

#endif
