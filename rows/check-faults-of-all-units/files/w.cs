file a.c
file b.c
file c.c
file d.c
file e.c
