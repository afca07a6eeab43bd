#define STOP(n) abort()
void k(void) { STOP(1); }
