int letters\
; int d;
