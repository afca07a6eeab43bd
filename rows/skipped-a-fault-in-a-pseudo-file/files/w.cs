file a.c
define A(
file a.c
