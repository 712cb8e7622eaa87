/* For the Rattle kit's compiler, which has no headers. */
#define bool _Bool
#define true 1
#define false 0
