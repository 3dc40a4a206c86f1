/* The types that both files use: the kit's clang comes without the headers of C. */
#ifndef TERRA_WEB_TYPES_H
#define TERRA_WEB_TYPES_H

#define NULL ((void *)0)
typedef __SIZE_TYPE__ size_t;
typedef __UINTPTR_TYPE__ uintptr_t;
typedef __UINT64_TYPE__ uint64_t;

#endif
