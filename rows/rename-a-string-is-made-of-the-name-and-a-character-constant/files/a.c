#define S(x) x, #x
int n;
int a[] = { S(n), S(n - '\n') };
char *u = "m";
