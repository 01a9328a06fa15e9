/* For a compiler that comes without the C library's headers: what the tests use, on Linux for x86-64. */
#ifndef HOST_SYS_MMAN_H
#define HOST_SYS_MMAN_H
#include <stddef.h>
#define PROT_READ 1
#define PROT_WRITE 2
#define MAP_PRIVATE 2
#define MAP_ANONYMOUS 32
#define MAP_FAILED ((void *)-1)
void *mmap(void *at, size_t length, int protection, int flags, int file, long offset);
int mprotect(void *at, size_t length, int protection);
#endif
