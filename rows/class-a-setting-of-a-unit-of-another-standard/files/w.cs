define N 3
file a.c
file b.c
project q
define N 3
standard c11
file c.c
