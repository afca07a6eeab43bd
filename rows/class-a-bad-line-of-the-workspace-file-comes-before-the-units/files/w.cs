file no.c
unit a.c
