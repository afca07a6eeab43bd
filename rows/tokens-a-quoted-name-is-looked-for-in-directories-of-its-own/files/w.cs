qpath q
ipath i
file a.c
