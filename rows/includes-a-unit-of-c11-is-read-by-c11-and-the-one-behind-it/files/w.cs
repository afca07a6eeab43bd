standard c11
file a.c
standard c99
file a.c
