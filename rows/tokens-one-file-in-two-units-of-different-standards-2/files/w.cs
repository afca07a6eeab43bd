file a.c
standard c11
file a.c
