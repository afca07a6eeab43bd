file a.c
bad
file <