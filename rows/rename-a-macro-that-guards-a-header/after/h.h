#ifndef GUARD
#define GUARD
extern int n;
#endif
