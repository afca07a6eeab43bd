file b.c
