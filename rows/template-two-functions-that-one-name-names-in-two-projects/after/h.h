int f(char *b, int a);
