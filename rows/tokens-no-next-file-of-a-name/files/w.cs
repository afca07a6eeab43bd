standard gnu11
ipath d1
ipath d2
ipath d3
file a.c
