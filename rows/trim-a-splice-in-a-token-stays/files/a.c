#inc\
lude "h.h"
int x;
