int g(int n, char *p) __attribute__((nonnull(2)));
int f(int n, char *p);
int f(int n, char *p) __attribute__((nonnull(2)));
