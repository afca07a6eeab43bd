void k(void) { leave(1); }
void m(void) { extern int leave(); leave(2); }
