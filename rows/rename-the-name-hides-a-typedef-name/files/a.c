typedef int t;
void f(int t) { int g(t); }
