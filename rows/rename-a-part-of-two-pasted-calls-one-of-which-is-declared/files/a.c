#define CALL(x) my_ ## x()
int my_a(void) { return 0; }
void k(void) { CALL(a); CALL(b); }
