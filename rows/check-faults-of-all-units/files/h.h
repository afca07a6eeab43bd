
#define X(a) (a + CAT(un,kn))
#define CAT(a,b) a##b
