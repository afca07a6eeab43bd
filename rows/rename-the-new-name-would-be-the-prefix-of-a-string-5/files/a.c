#define u "%d"
char *s = u"x";
