void k(void) { g(1); }
void m(void) { extern int g(); g(2); }
