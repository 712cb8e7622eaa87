/* What pcompact.h takes of it, for the Rattle kit's compiler, which has no headers. */
typedef __SIZE_TYPE__ size_t;

#define NULL ((void *)0)
