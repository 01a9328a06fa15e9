#include "words.h"
#include <stdio.h>
#include <stdlib.h>
#include <string.h>

static char *line;
static size_t room;
static const char *at;
static const char *end;
static uint64_t lines;

int next_line(void)
{
    long length = getline(&line, &room, stdin);
    if (length < 0)
        return 0;
    lines++;
    at = line;
    end = line + length;
    if (length > 0 && end[-1] == '\n')
        end--;
    return 1;
}

void no_case(void)
{
    fflush(stdout);
    fprintf(stderr, "driver: line %lu is no case from character %lu on\n", lines, (unsigned long)(at - line) + 1);
    exit(2);
}

int ended(void)
{
    return at == end;
}

int passed(const char *text)
{
    size_t n = strlen(text);
    if ((size_t)(end - at) < n || memcmp(at, text, n) != 0)
        return 0;
    at += n;
    return 1;
}

void pass(const char *text)
{
    if (!passed(text))
        no_case();
}

/* The digit that stands here; 10 if none does. */
static unsigned digit(void)
{
    return at < end && '0' <= *at && *at <= '9' ? (unsigned)(*at - '0') : 10;
}

int passed_to_digit(const char *text)
{
    const char *here = at;
    if (passed(text) && digit() <= 9)
        return 1;
    at = here;
    return 0;
}

uint64_t number(void)
{
    uint64_t x = 0;
    if (digit() > 9)
        no_case();
    for (unsigned d; (d = digit()) <= 9; at++) {
        if (x > (UINT64_MAX - d) / 10)
            no_case();
        x = 10 * x + d;
    }
    return x;
}

uint32_t number32(void)
{
    uint64_t x = number();
    if (x > UINT32_MAX)
        no_case();
    return (uint32_t)x;
}

uint8_t number8(void)
{
    uint64_t x = number();
    if (x > UINT8_MAX)
        no_case();
    return (uint8_t)x;
}

/* A digit of a byte, passed over; 16 if none stands here. */
static unsigned hex_digit(void)
{
    unsigned d = digit();
    if (d > 9)
        d = at < end && 'a' <= *at && *at <= 'f' ? (unsigned)(*at - 'a') + 10 : 16;
    at += d < 16;
    return d;
}

size_t hex(uint8_t *bytes, size_t most)
{
    size_t n = 0;
    if (passed("-"))
        return 0;
    for (unsigned high; (high = hex_digit()) < 16; n++) {
        unsigned low = hex_digit();
        if (low > 15 || n == most)
            no_case();
        bytes[n] = (uint8_t)(16 * high + low);
    }
    if (n == 0)
        no_case();
    return n;
}
