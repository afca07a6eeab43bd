define N 3
file a.c
project q
file b.c
project r
define N 3
file c.c
