file b.c
file a.c
readonly lib/
