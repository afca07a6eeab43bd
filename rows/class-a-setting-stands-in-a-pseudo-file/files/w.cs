define N 3
file a.c
