readonly h
file a.c
