standard gnu11
file a.c
standard c99
file b.c
