/* For a compiler that comes without the C library's headers. */
#ifndef HOST_STRING_H
#define HOST_STRING_H
#include <stddef.h>
#ifdef __cplusplus
extern "C" {
#endif
int memcmp(const void *a, const void *b, size_t n);
void *memset(void *a, int byte, size_t n);
void *memcpy(void *to, const void *from, size_t n);
void *memmove(void *to, const void *from, size_t n);
int strcmp(const char *a, const char *b);
size_t strlen(const char *text);
#ifdef __cplusplus
}
#endif
#endif
