file a.c
readonly inc/
