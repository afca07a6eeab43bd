enum { NEXT = __COUNTER__ };
#define TOLD
