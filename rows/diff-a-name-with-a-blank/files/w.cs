file b c.c
