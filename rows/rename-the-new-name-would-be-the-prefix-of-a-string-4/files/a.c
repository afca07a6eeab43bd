#define FMT "%d"
char *s = FMT "x";
