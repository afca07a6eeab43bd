file no.c
file a.c
