/* Whole numbers of 32 bits as FITS files have them: the highest byte first. */
#ifndef STORED_H
#define STORED_H

#include <stdint.h>

/* The bytes of a number in the order that they have there, or from there in the order of this machine. */
static inline uint32_t turned(uint32_t number)
{
#if __BYTE_ORDER__ == __ORDER_LITTLE_ENDIAN__
    return number >> 24 | (number >> 8 & 0xff00u) | (number << 8 & 0xff0000u) | number << 24;
#else
    return number;
#endif
}

static inline int32_t number_of(uint32_t stored)
{
    return (int32_t)turned(stored);
}

static inline uint32_t stored(int32_t number)
{
    return turned((uint32_t)number);
}

#endif
