file a.c
define X 1
file b.c
