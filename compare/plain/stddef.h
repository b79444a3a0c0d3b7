/* The sizes of x86-64, for a compiler that comes without headers. */
#ifndef PLAIN_STDDEF_H
#define PLAIN_STDDEF_H
typedef unsigned long size_t;
#define NULL ((void *)0)
#endif
