standard gnu99
file a.c
file b.c
