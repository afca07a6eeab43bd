standard gnu99
file a.c
project p
file a.c
