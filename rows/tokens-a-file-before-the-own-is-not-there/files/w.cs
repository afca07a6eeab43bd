define A
include no.h
file a.c
