ipath inc
file a.c
