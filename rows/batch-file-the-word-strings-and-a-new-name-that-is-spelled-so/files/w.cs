file a.c
file b.c
file é.c
file b/c.c
