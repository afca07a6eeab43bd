project p
file a.c
project q
file b.c
