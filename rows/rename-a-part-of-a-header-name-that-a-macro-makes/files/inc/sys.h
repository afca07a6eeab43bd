extern int q;
