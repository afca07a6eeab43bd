#define ONE(a) (a)
#define LP (
#define RP )
#define ID(x) x
int x = ID(ONE LP 1 RP);
