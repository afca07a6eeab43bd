#define S(x) #x
#define T(y) S(\y)
char *a = T(v);
