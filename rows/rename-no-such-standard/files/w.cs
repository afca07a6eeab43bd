standard c17
file a.c
