int l;
int f(void) { goto l; l: return l; }
