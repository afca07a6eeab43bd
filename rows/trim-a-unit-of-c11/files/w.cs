standard c11
file a.c
