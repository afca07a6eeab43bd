standard gnu11
file b.c
