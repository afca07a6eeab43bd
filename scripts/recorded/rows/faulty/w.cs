define __asm__(...)
define TWICE(x) ((x) + (x))
file good.c
file barrier.c
file bounded.c
file absent.c
file logged.c
file mixed.c
file open.c
file printed.c
file member.c
file other.c
