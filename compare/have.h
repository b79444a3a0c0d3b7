/* Which calls the linked library has. A call that is not defined here is neither linked nor compared, and the summary says so. */
#ifndef HAVE_H
#define HAVE_H
#define HAVE_RECORDS 1
#define HAVE_TAGS 1
#define HAVE_CHECK 1
#define HAVE_AXES 1
#define HAVE_ORDERED 1
#define HAVE_FITS 1
#define HAVE_PREPARE 1
#define HAVE_WALK 1
#endif
