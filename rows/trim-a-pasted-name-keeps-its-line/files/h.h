#define ONLY(x) x
