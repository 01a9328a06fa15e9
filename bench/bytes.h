/* Numbers of four bytes, the high byte first. */
#ifndef BYTES_H
#define BYTES_H

#include <stdint.h>

static inline uint32_t number_at(const uint8_t *at)
{
    return (uint32_t)at[0] << 24 | (uint32_t)at[1] << 16 | (uint32_t)at[2] << 8 | at[3];
}

/* Answers the place behind the number. */
static inline uint8_t *put_number(uint8_t *at, uint32_t x)
{
    at[0] = (uint8_t)(x >> 24);
    at[1] = (uint8_t)(x >> 16);
    at[2] = (uint8_t)(x >> 8);
    at[3] = (uint8_t)x;
    return at + 4;
}
#endif
