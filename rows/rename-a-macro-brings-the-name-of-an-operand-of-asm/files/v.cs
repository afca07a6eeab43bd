standard gnu99
file b.c
