define _Pragma(x)
file a.c
