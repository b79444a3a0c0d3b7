/* The calls themselves, taken from one list by either program. */
#ifndef CALLS_H
#define CALLS_H
#include "base.h"
#include "have.h"

/* The lent memory of one run. */
typedef struct {
    void *sig, *room;               /* numbers or bytes */
    u16 *twig, *more, *state;
    u64 *out;
    size_t sig_len, twig_len, more_len, room_len;
} Lents;

u16 call_library(int call, const u64 *number, const Lents *at);
u16 call_second(int call, const u64 *number, const Lents *at);

#ifdef HAVE_RECORDS
#define LINKED_RECORDS 1
#else
#define LINKED_RECORDS 0
#endif
#ifdef HAVE_TAGS
#define LINKED_TAGS 1
#else
#define LINKED_TAGS 0
#endif
#ifdef HAVE_CHECK
#define LINKED_CHECK 1
#else
#define LINKED_CHECK 0
#endif
#ifdef HAVE_AXES
#define LINKED_AXES 1
#else
#define LINKED_AXES 0
#endif
#ifdef HAVE_ORDERED
#define LINKED_ORDERED 1
#else
#define LINKED_ORDERED 0
#endif
#ifdef HAVE_FITS
#define LINKED_FITS 1
#else
#define LINKED_FITS 0
#endif
#ifdef HAVE_PREPARE
#define LINKED_PREPARE 1
#else
#define LINKED_PREPARE 0
#endif
#ifdef HAVE_WALK
#define LINKED_WALK 1
#else
#define LINKED_WALK 0
#endif

#endif
