define OTHER A
file a.c
