/* A case: one call with all that it is given. It is run by the library and by the second program on memory of their own, and everything is compared:
 * the number returned, out, the state, the room, what was lent to be read, and the guard numbers around each of them. */
#ifndef CASES_H
#define CASES_H
#include "second.h"

enum {
    READ_RECORDS, WRITE_RECORDS, TAGS_TO_SIGNATURE, SIGNATURE_TO_TAGS, CHECK_TURN, LEVEL, BLOCK_PLACE, AXIS, ORDERED_NEXT,
    FITS_TURN, PREPARE_START, PREPARE_TURN, WALK_FRESH, WALK_TURN, CALLS
};

/* The longest list is a room of m*n numbers and some more: longer than 10 bytes an entry. */
enum { LONGEST = MOST_TWIG * MOST_DATA + 64, MOST_STATE = 19, MOST_OUT = 3, REFUSALS = 12 };

/* A list of numbers or bytes, each held as a number here. */
typedef struct {
    size_t len;
    u16 at[LONGEST];
} List;

typedef struct {
    int call;
    u64 number[3];          /* the plain numbers, in the order of the call's parameters */
    List sig;               /* the signature, or the bytes to read */
    List twig;
    List more;              /* contexts, or a tuple */
    List room;              /* the room or the table, with what it holds before the call */
    u16 state[MOST_STATE];
} Case;

/* What a call is given and gives: how many plain numbers, whether the lists are bytes, how long state and out are; and which refusals it can give. */
typedef struct {
    const char *name;
    int linked, numbers, bytes_in, bytes_out, state, outs;
    unsigned refusals;      /* bit r stands for number r */
} Shape;

extern const Shape shapes[CALLS];

/* Runs a case twice and compares. Afterwards the case's room and state are as the call left them, so that a turn can follow; the number and out are
 * in `came`. A difference is said and counted. */
typedef struct {
    u16 number;
    u64 out[MOST_OUT];
} Came;
extern Came came;
void run_case(Case *given);

/* The second program alone, on a copy: what a case would come to. */
Came second_of(const Case *given);

extern u64 differences;
extern u64 met[CALLS][REFUSALS + 1];   /* how often each call gave each number, 0 for worked */
extern u64 stops[CALLS][4];            /* how often a turn of it stopped for each reason */
void say_case(const Case *given);

/* Reads a kept case; 0 where the file is none. */
int read_case(const char *path, Case *to);

#endif
