#if 0
one
#elifdef A
two
#elifndef A
three
#elifdef A
four
#else
five
#endif
#define A
#ifdef A
#elifdef A
six
#endif
