/* What pcompact.h and lent.h take of it, for the Rattle kit's compiler, which has no headers. */
typedef __UINT8_TYPE__ uint8_t;
typedef __UINT32_TYPE__ uint32_t;
typedef __UINT64_TYPE__ uint64_t;
typedef __UINTPTR_TYPE__ uintptr_t;

#define UINT64_MAX __UINT64_MAX__
