/*
 * A line of a case, read from the left. What is found is passed over; where something else stands, the line is no case,
 * and the program ends with an error that names the line.
 */
#ifndef WORDS_H
#define WORDS_H
#include <stddef.h>
#include <stdint.h>

/* The next line of standard input; 0 at its end. */
int next_line(void);

/* Nothing is left of the line. */
int ended(void);

/* The text stands here: it is passed over. Else nothing is, and the answer is 0. */
int passed(const char *text);

/* The same of a text that has a digit behind it. */
int passed_to_digit(const char *text);

/* The text must stand here. */
void pass(const char *text);

/* The line is no case. */
void no_case(void) __attribute__((noreturn));

/* A decimal number of 64 bits, of 32, and of 8. */
uint64_t number(void);
uint32_t number32(void);
uint8_t number8(void);

/* Bytes of two lower-case digits each, `-` for none; their number. */
size_t hex(uint8_t *bytes, size_t room);
#endif
