#ifndef KIT_STRING_H
#define KIT_STRING_H
#include <stddef.h>
size_t strlen(const char *text);
int strcmp(const char *a, const char *b);
char *strerror(int number);
#endif
