unit a.c
