ipath inc
file src/a.c
