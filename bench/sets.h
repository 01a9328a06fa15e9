/* The sets that are planned, written, read and run, and random numbers. */
#ifndef SETS_H
#define SETS_H

#include "olivastrum.h"

/* A number below 2^32, the same ones in every run. */
uint32_t random_number(void);

/* From here on the first ones again. */
void first_numbers(void);

/* Stations of all kinds in a ring of TTRT 100,000 with frames up to `frame`, planned and run in any mode. */
struct olivastrum_set stations(uint32_t n, uint32_t mode, uint32_t frame);

/* A timely-token set whose deadlines are q whole rotations and a part of one. */
struct olivastrum_set rotations(uint32_t n, uint32_t q);

/* S at each station as the library plans it. FDDI is planned no more: there the least vector that meets its rules, and zeros
 * where there is none. */
struct olivastrum_alloc shares_of(const struct olivastrum_set *set);

/* The ring as the library opens it. FDDI is opened no more: there the ring that opening used to give. */
struct olivastrum_ring ring_of(const struct olivastrum_set *set, const struct olivastrum_alloc *alloc);

/* A random FDDI set of n stations. Its deadlines ask at most for `load` hundredths of the room that the token rule leaves, so
 * up to 100 there is a plan; but for sets, one in eight, in which a deadline is shorter than two rotations. */
struct olivastrum_set random_fddi(uint32_t n, uint32_t load);

#endif
