readonly ro/
file a.c
