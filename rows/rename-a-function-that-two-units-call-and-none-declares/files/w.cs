standard gnu11
file b.c
file a.c
