define A 1
file a.c
project p
file a.c
