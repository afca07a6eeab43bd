file a.c
file no.c
