/* The C library's memory and strings, as far as the host programs use them. */
#ifndef HOST_STRING_H
#define HOST_STRING_H

#include <stddef.h>

void *memcpy(void *to, const void *from, size_t count);
int strcmp(const char *a, const char *b);
size_t strlen(const char *text);

#endif
