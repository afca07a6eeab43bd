ipath d1
ipath d2
file a.c
