#ifndef KIT_STDDEF_H
#define KIT_STDDEF_H
typedef __SIZE_TYPE__ size_t;
#define NULL ((void *)0)
#endif
