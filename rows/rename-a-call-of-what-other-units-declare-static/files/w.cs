standard gnu11
file a.c
file b.c
