#ifdef A
int x;
#endif
int y;
