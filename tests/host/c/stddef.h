/* For a compiler that comes without the C library's headers: the names that the host and its header need. */
#ifndef HOST_STDDEF_H
#define HOST_STDDEF_H
typedef __SIZE_TYPE__ size_t;
#define offsetof(type, field) __builtin_offsetof(type, field)
#endif
