#ifndef KIT_ERRNO_H
#define KIT_ERRNO_H
int *__errno_location(void) __attribute__((const));
#define errno (*__errno_location())
#define EIO 5
#define ENOMEM 12
#endif
