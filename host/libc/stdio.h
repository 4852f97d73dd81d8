/* The C library's input and output, as far as the host programs use it. */
#ifndef HOST_STDIO_H
#define HOST_STDIO_H

#include <stddef.h>

typedef struct _IO_FILE FILE;
extern FILE *stdin;
extern FILE *stderr;

int printf(const char *format, ...);
int fprintf(FILE *file, const char *format, ...);
size_t fread(void *bytes, size_t size, size_t count, FILE *file);
int ferror(FILE *file);

#endif
