#define S(x) #x
int count;
const char *p = S(count);
#if 0
count
#endif
#pragma count
