/* What the lessons share. Each lesson is one file: a trainee's plain C with one fault, our call beside it, and the smallest input on which they part. */
#ifndef LESSON_H
#define LESSON_H
#include "../include/icebittern.h"

typedef uint16_t u16;
typedef uint64_t u64;

int printf(const char *format, ...);

void lesson_pointer(void);
void lesson_tart(void);
void lesson_run(void);
void lesson_neighbours(void);
void lesson_open(void);
void lesson_twice(void);
void lesson_half(void);
void lesson_sits(void);

/* Says the entries of a signature, and a list of ranks after a few words. */
void say_menu(const char *what, const u16 *sig, int n);
void say_ranks(const char *who, const u16 *ranks, u64 count);

/* Says why a call was refused, or that it worked. */
void say_refusal(const char *who, u16 number, u64 entry);

/* Prepares a question by our calls; the table has room for 64 entries. */
extern u16 table[128];
void prepare(const u16 *menu, int n, const u16 *twig, int m);

/* Walks all answers by our calls and says each; the number of answers. */
int say_answers(const u16 *menu, int n, const u16 *twig, int m);

#endif
