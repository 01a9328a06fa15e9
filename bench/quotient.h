/* The whole quotient by a number above 0: with the machine's divide, as one writes it; or, with -DBY_SHIFTING, by shifting
 * and subtracting, as the proved library has to. */
#ifndef QUOTIENT_H
#define QUOTIENT_H

#include <stdint.h>

#ifdef BY_SHIFTING
static inline uint32_t quotient(uint32_t a, uint32_t b)
{
    if (a < b)
        return 0;
    uint32_t part = b, q = 1;
    while (part <= a - part)
        part += part;
    for (a -= part; part > b;) {
        part >>= 1;
        q += q;
        if (part <= a) {
            a -= part;
            q++;
        }
    }
    return q;
}
#else
static inline uint32_t quotient(uint32_t a, uint32_t b)
{
    return a / b;
}
#endif
#endif
