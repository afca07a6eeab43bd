#define S(x) #x
int total;
const char *p = S(count);
#if 0
count
#endif
#pragma count
