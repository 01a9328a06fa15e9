/* The names of the C library that timing needs, for a compiler that comes without its headers. The target is x86-64 Linux. */
#ifndef SYSTEM_H
#define SYSTEM_H
#include <stddef.h>
struct timespec {
    long tv_sec;
    long tv_nsec;
};
#define CLOCK_THREAD_CPUTIME_ID 3
int clock_gettime(int clock, struct timespec *now);
void qsort(void *items, size_t count, size_t size, int (*order)(const void *, const void *));

/* The processor time of this thread, in ns. */
static inline double processor_ns(void)
{
    struct timespec now;
    clock_gettime(CLOCK_THREAD_CPUTIME_ID, &now);
    return (double)now.tv_sec * 1e9 + (double)now.tv_nsec;
}

/* An order for qsort. */
static inline int by_size(const void *a, const void *b)
{
    double x = *(const double *)a, y = *(const double *)b;
    return (x > y) - (x < y);
}
#endif
