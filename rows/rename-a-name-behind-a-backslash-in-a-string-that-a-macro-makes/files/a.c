#define S(x) #x
#define T(x) S(\x)
char *a = T(v);
