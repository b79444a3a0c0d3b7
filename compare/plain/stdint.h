/* The sizes of x86-64, for a compiler that comes without headers. */
#ifndef PLAIN_STDINT_H
#define PLAIN_STDINT_H
typedef unsigned char uint8_t;
typedef unsigned short uint16_t;
typedef unsigned int uint32_t;
typedef unsigned long uint64_t;
#endif
