#define S(x) #x
#include S(sys.h)
