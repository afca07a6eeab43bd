#ifndef NEXT
#define NEXT
MANY(extern int c[sizeof NAME];)
#endif
