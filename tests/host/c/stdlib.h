/* For a compiler that comes without the C library's headers. */
#ifndef HOST_STDLIB_H
#define HOST_STDLIB_H
#include <stddef.h>
void exit(int status) __attribute__((noreturn));
char *getenv(const char *name);
void *realloc(void *bytes, size_t size);
#endif
