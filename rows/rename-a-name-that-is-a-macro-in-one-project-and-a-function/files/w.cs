project one
define FAST 1
file a.c
project two
file a.c
