extern int n;
