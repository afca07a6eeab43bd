file a.c
file b.c
file c.c
