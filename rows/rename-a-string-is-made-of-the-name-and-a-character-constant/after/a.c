#define S(x) x, #x
int m;
int a[] = { S(m), S(m - '\n') };
char *u = "m";
