project one
standard gnu11
file a.c
file b.c
project two
standard gnu11
file a.c
file c.c
