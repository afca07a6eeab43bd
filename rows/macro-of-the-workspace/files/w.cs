define SUB(a, b) ((a) - (b))
file a.c
