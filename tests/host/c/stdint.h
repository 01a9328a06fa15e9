/* For a compiler that comes without the C library's headers: the names that include/olivastrum.h and the programs in C need. */
#ifndef HOST_STDINT_H
#define HOST_STDINT_H
typedef __UINT8_TYPE__ uint8_t;
typedef __UINT32_TYPE__ uint32_t;
typedef __UINT64_TYPE__ uint64_t;
typedef __INT64_TYPE__ int64_t;
#define UINT8_MAX 255
#define UINT32_MAX 4294967295u
#define UINT64_MAX (~(uint64_t)0)
#endif
