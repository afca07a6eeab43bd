file a.c
file a.c
