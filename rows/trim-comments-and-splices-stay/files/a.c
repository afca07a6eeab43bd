/* a */ # /* b */ include \
 "h.h" // c
int x;
