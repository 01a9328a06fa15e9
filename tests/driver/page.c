#include "page.h"
#include <stdio.h>
#include <stdlib.h>
#include <string.h>

static char *page;
static size_t length;
static size_t room;

static void put_byte(char byte)
{
    if (length == room) {
        room = 2 * room + 4096;
        page = realloc(page, room);
        if (!page) {
            fprintf(stderr, "driver: no memory\n");
            exit(2);
        }
    }
    page[length++] = byte;
}

void put(const char *text)
{
    while (*text)
        put_byte(*text++);
}

void put_number(uint64_t x)
{
    char digits[20];
    int n = 0;
    do
        digits[n++] = (char)('0' + x % 10);
    while ((x /= 10) > 0);
    while (n > 0)
        put_byte(digits[--n]);
}

void put_after(char before, uint64_t x)
{
    put_byte(before);
    put_number(x);
}

void put_signed_after(char before, int64_t x)
{
    put_byte(before);
    if (x < 0)
        put_byte('-');
    put_number(x < 0 ? -(uint64_t)x : (uint64_t)x);
}

void put_hex(const uint8_t *bytes, size_t n)
{
    for (size_t i = 0; i < n; i++) {
        put_byte("0123456789abcdef"[bytes[i] / 16]);
        put_byte("0123456789abcdef"[bytes[i] % 16]);
    }
}

void end_line(void)
{
    put_byte('\n');
    if (fwrite(page, 1, length, stdout) != length)
        exit(2);
    length = 0;
}
