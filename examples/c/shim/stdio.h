/* The kit's compiler brings no headers: what the programs here use of this one. */
#ifndef SHIM_STDIO_H
#define SHIM_STDIO_H
#include <stddef.h>
typedef struct shim_file FILE;
FILE *fopen(const char *name, const char *mode);
size_t fread(void *to, size_t size, size_t count, FILE *file);
char *fgets(char *to, int room, FILE *file);
int fclose(FILE *file);
int printf(const char *form, ...) __attribute__((format(printf, 1, 2)));
int snprintf(char *to, size_t room, const char *form, ...) __attribute__((format(printf, 3, 4)));
#endif
