#define u8 "%d"
#ifdef u8
#else
char *s = FMT"x";
#endif
