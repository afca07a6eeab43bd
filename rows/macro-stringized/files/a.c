#define SUB(a, b) ((a) - (b))
#define CHK(x) chk(x, #x)
int chk(int v, char *s);
int z(void) { return CHK(SUB(4, 5)); }
