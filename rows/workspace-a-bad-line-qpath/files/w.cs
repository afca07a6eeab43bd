qpath
file a.c
