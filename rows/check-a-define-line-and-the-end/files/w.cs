define N y
file a.c
file b.c
