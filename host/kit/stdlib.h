#ifndef KIT_STDLIB_H
#define KIT_STDLIB_H
#include <stddef.h>
void *malloc(size_t size);
void *realloc(void *old, size_t size);
void free(void *old);
int atoi(const char *text);
#endif
