file a.c
readonly h.h
