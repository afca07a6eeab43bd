standard gnu11
file a.c
