/* Each call of either program on lent memory. */
#include "cases.h"
#include "calls.h"
#include "../include/icebittern.h"

/* One list of the calls serves both programs; `of` puts a program's prefix before a call's name. */
#define RECORD_CALLS(of) \
    case READ_RECORDS: return of(read_records)(at->sig, at->sig_len, at->room, at->room_len, at->out); \
    case WRITE_RECORDS: return of(write_records)(at->sig, at->sig_len, at->room, at->room_len, at->out);
#define TAG_CALLS(of) \
    case TAGS_TO_SIGNATURE: return of(tags_to_signature)((u16)number[0], at->sig, at->sig_len, at->room, at->room_len, at->out); \
    case SIGNATURE_TO_TAGS: return of(signature_to_tags)((u16)number[0], at->sig, at->sig_len, at->room, at->room_len, at->out);
#define CHECK_CALLS(of) \
    case CHECK_TURN: return of(check_turn)((u16)number[0], at->sig, at->sig_len, at->state, number[1], at->out);
#define AXIS_CALLS(of) \
    case LEVEL: return of(level)(at->sig, at->sig_len, (u16)number[0], at->out); \
    case BLOCK_PLACE: return of(block_place)(at->sig, at->sig_len, (u16)number[0], at->out); \
    case AXIS: return of(axis)(at->sig, at->sig_len, at->more, at->more_len, (u16)number[0], (u16)number[1], (u16)number[2], at->room, \
                               at->room_len, at->out);
#define ORDERED_CALLS(of) \
    case ORDERED_NEXT: return of(ordered_next)(at->sig, at->sig_len, at->twig, at->twig_len, at->more, at->more_len, at->room, \
                                               at->room_len, at->out);
#define FITS_CALLS(of) \
    case FITS_TURN: return of(fits_turn)(at->sig, at->sig_len, at->twig, at->twig_len, at->room, at->room_len, at->state, number[0], at->out);
#define PREPARE_CALLS(of) \
    case PREPARE_START: return of(prepare_start)(number[0], at->room, at->room_len, at->out); \
    case PREPARE_TURN: return of(prepare_turn)(at->sig, at->sig_len, at->twig, at->twig_len, at->room, at->room_len, at->state, number[0], \
                                               at->out);
#define WALK_CALLS(of) \
    case WALK_FRESH: return of(walk_fresh)(at->state); \
    case WALK_TURN: return of(walk_turn)(at->sig, at->sig_len, at->twig, at->twig_len, at->room, at->room_len, at->state, number[0], at->out);

#define IB(name) ib_##name
#define SECOND(name) second_##name

u16 call_second(int call, const u64 *number, const Lents *at)
{
    switch (call) {
        RECORD_CALLS(SECOND)
        TAG_CALLS(SECOND)
        CHECK_CALLS(SECOND)
        AXIS_CALLS(SECOND)
        ORDERED_CALLS(SECOND)
        FITS_CALLS(SECOND)
        PREPARE_CALLS(SECOND)
        WALK_CALLS(SECOND)
    }
    return 0;
}

#ifdef ALONE
/* With no library at hand the second program stands on both sides, to try the makers of cases. */
u16 call_library(int call, const u64 *number, const Lents *at)
{
    return call_second(call, number, at);
}
#else
u16 call_library(int call, const u64 *number, const Lents *at)
{
    switch (call) {
#ifdef HAVE_RECORDS
        RECORD_CALLS(IB)
#endif
#ifdef HAVE_TAGS
        TAG_CALLS(IB)
#endif
#ifdef HAVE_CHECK
        CHECK_CALLS(IB)
#endif
#ifdef HAVE_AXES
        AXIS_CALLS(IB)
#endif
#ifdef HAVE_ORDERED
        ORDERED_CALLS(IB)
#endif
#ifdef HAVE_FITS
        FITS_CALLS(IB)
#endif
#ifdef HAVE_PREPARE
        PREPARE_CALLS(IB)
#endif
#ifdef HAVE_WALK
        WALK_CALLS(IB)
#endif
    }
    return 0;
}
#endif
