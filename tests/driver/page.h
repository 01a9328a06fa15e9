/* The answer to a case, put together and then written out as one line. */
#ifndef PAGE_H
#define PAGE_H
#include <stddef.h>
#include <stdint.h>

void put(const char *text);
void put_number(uint64_t x);

/* A byte, and a number behind it. */
void put_after(char before, uint64_t x);

/* The same with a number that may be negative. */
void put_signed_after(char before, int64_t x);

/* Two lower-case digits for each byte. */
void put_hex(const uint8_t *bytes, size_t n);

/* Ends the line and writes it out. */
void end_line(void);
#endif
