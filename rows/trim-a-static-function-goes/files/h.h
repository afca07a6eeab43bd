static int own(void) { return 1; }
extern int other;
int f(void);
