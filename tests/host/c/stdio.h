/* For a compiler that comes without the C library's headers: the names that the programs in C need. */
#ifndef HOST_STDIO_H
#define HOST_STDIO_H
#include <stddef.h>
#ifdef __cplusplus
extern "C" {
#endif
typedef struct _IO_FILE FILE;
extern FILE *stdin, *stdout, *stderr;
int printf(const char *format, ...);
int fprintf(FILE *file, const char *format, ...);
int puts(const char *line);
long getline(char **line, size_t *room, FILE *file);
size_t fwrite(const void *bytes, size_t size, size_t count, FILE *file);
int fflush(FILE *file);
#ifdef __cplusplus
}
#endif
#endif
