file a.c
file s
