include pre/p.h
define ONE 1
file a.c
project other
file a.c
