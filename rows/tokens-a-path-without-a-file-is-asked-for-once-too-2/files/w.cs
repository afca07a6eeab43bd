ipath i
file a.c
file b.c
