file a.c
file c.c
