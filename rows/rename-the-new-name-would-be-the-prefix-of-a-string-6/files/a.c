#define FMT "%d"
#ifdef FMT
#else
char *s = FMT"x";
#endif
