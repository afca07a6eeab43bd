readonly inc/
file a.c
