readonly ro/
ipath ro
file a.c
