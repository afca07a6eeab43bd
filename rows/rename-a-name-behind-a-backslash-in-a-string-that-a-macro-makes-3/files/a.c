#define S(x) #x
char *a = S(\\v);
