define W 1
file a.c
