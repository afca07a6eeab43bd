standard gnu11
readonly lib
file lib/a.c
