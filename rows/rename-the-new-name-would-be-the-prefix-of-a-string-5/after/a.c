#define v "%d"
char *s = v"x";
