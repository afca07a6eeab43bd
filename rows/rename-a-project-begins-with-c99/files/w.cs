standard c11
project p
file a.c
