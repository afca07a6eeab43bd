include a"b.h
file a.c
