file a.c
define N 2
file a.c
