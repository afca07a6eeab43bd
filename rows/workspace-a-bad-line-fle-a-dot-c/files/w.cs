project p
fle a.c