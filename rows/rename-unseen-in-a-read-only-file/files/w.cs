readonly lib/
file a.c
