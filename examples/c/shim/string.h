/* The kit's compiler brings no headers: what the programs here use of this one. */
#ifndef SHIM_STRING_H
#define SHIM_STRING_H
#include <stddef.h>
int memcmp(const void *a, const void *b, size_t count);
void *memcpy(void *to, const void *from, size_t count);
void *memset(void *to, int byte, size_t count);
int strcmp(const char *a, const char *b);
size_t strlen(const char *text);
#endif
