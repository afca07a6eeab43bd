file a.c
