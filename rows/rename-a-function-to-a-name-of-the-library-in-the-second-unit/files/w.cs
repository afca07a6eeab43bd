file b.c
file a.c
