define A 1
file a.c
