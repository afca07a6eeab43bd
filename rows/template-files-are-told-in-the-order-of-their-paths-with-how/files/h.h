int f(int a, char *b);
