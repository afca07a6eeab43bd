ipath i
include f.h
file a.c
project q
include f.h
file b.c
