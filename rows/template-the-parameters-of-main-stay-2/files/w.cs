readonly h.h
file a.c
