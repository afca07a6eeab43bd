int f(int a, enum { E } b);
