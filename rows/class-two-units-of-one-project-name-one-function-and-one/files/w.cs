project p
file a.c
file b.c
project q
file c.c
