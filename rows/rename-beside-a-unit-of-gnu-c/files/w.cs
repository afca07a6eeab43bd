file a.c
standard gnu99
file b.c
